# Completion of the words of zfpi for fish: put this file into ~/.config/fish/completions.
# Made by docs/completions.py.

# Whether the word at the cursor has this number, of one of these commands.
function __zfpi_is --argument-names number
    set -l words (commandline -opc)
    test (count $words) -eq $number; or return
    test $number -eq 1; or contains -- $words[2] $argv[2..]
end

# Files of the current folder that are names as run, look and bound take them.
function __zfpi_names
    for file in *
        test -f $file; and string match -rq '^[A-Za-z0-9][A-Za-z0-9_.-]{0,63}$' -- $file; and echo $file
    end
end

# Behind `<` and `>` fish completes files by itself.
complete -c zfpi -f
complete -c zfpi -n '__zfpi_is 1' -a compress -d 'raw values into a stream'
complete -c zfpi -n '__zfpi_is 1' -a restore -d 'a stream into raw values'
complete -c zfpi -n '__zfpi_is 1' -a info -d 'the header of a stream'
complete -c zfpi -n '__zfpi_is 1' -a new -d 'a cached array of zeros, as a file'
complete -c zfpi -n '__zfpi_is 1' -a run -d 'a script on a cached array'
complete -c zfpi -n '__zfpi_is 1' -a look -d 'a script on an array that is only read'
complete -c zfpi -n '__zfpi_is 1' -a bound -d 'how far values may be off'
complete -c zfpi -n '__zfpi_is 1' -a sample -d 'an array from a number, there and back'
complete -c zfpi -n '__zfpi_is 2 compress' -a 'int32 int64 int8 uint8 int16 uint16'
complete -c zfpi -n '__zfpi_is 2 restore' -a 'int8 uint8 int16 uint16'
complete -c zfpi -n '__zfpi_is 3 new' -a 'int32 int64'
complete -c zfpi -n '__zfpi_is 2 sample' -a 'int32 int64'
complete -c zfpi -n '__zfpi_is 4 compress' -a 'reversible rate precision'
complete -c zfpi -n '__zfpi_is 5 sample' -a 'reversible rate precision'
complete -c zfpi -n '__zfpi_is 3 run' -a 'lines twoway'
complete -c zfpi -n '__zfpi_is 3 look' -a 'lines'
complete -c zfpi -n '__zfpi_is 2 run look bound' -a '(__zfpi_names)'
