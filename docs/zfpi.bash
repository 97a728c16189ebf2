# Completion of the words of zfpi for bash: source this file, or put it into a folder of bash-completion.
# Made by docs/completions.py.

# Files of the current folder that are names as run, look and bound take them.
_zfpi_names() {
    local file
    for file in "$1"*; do
        [[ -f $file && ${#file} -le 64 && $file =~ ^[A-Za-z0-9][A-Za-z0-9_.-]*$ ]] && COMPREPLY+=("$file")
    done
}

# Where nothing is offered, as behind `<`, bash completes files by itself (bashdefault, default).
_zfpi() {
    local word=$2 words=() LC_ALL=C
    COMPREPLY=()
    [[ $3 == [\<\>]* ]] && return
    case "${COMP_WORDS[1]}/$COMP_CWORD" in
        */1) words=(compress restore info new run look bound sample) ;;
        compress/2) words=(int32 int64 int8 uint8 int16 uint16) ;;
        restore/2) words=(int8 uint8 int16 uint16) ;;
        new/3) words=(int32 int64) ;;
        sample/2) words=(int32 int64) ;;
        compress/4) words=(reversible rate precision) ;;
        sample/5) words=(reversible rate precision) ;;
        run/3) words=(lines twoway) ;;
        look/3) words=(lines) ;;
        run/2 | look/2 | bound/2) _zfpi_names "$word"; return ;;
    esac
    [[ ${#words[@]} -gt 0 ]] && mapfile -t COMPREPLY < <(compgen -W "${words[*]}" -- "$word")
}

complete -o bashdefault -o default -F _zfpi zfpi
