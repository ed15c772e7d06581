# Words of xduce for bash. Load it with:  . completions/xduce.bash
#
# First the commands, then files, then the names of types that the file defines (its `type NAME =`).

# Writes the names that the file's lines define, and the two that are always there.
_xduce_names() {
    [[ -f $1 && -r $1 ]] || return 0
    sed -n 's/^[[:blank:]]*type[[:blank:]]\{1,\}\([A-Za-z_][A-Za-z0-9_]*\)[[:blank:]]*=.*/\1/p' "$1"
    printf '%s\n' String Any
}

# Files and folders that begin with the word.
_xduce_files() {
    local name
    compopt -o filenames 2>/dev/null
    while IFS= read -r name; do
        COMPREPLY+=("$name")
    done < <(compgen -f -- "$1")
}

# The names of a file's types that begin with the word. A file's word is as it was typed: quotes, `\ ` and `~` still stand in it.
_xduce_types() {
    local file=${1/#\~\//"$HOME/"} name
    file=${file//\\/}
    file=${file//[\"\']/}
    while IFS= read -r name; do
        [[ $name == "$2"* ]] && COMPREPLY+=("$name")
    done < <(_xduce_names "$file" | sort -u)
}

_xduce() {
    local word=${COMP_WORDS[COMP_CWORD]} command=${COMP_WORDS[1]-} file=${COMP_WORDS[2]-} name
    COMPREPLY=()
    if ((COMP_CWORD == 1)); then
        name='check fits least minus precise run sample stream subtype types upgrade verify'
        # The script of the sources has words of its own.
        [[ ${COMP_WORDS[0]} == */* ]] && name="$name help version test prove install uninstall"
        while IFS= read -r name; do
            COMPREPLY+=("$name")
        done < <(compgen -W "$name" -- "$word")
        return 0
    fi
    case $command:$COMP_CWORD in
    check:2 | fits:2 | least:2 | minus:2 | precise:2 | run:2 | stream:2 | subtype:2 | types:2 | upgrade:2 | verify:2 | fits:4 | run:3 | stream:4 | upgrade:3 | verify:3)
        _xduce_files "$word"
        ;;
    fits:3 | least:3 | minus:3 | minus:4 | stream:3 | subtype:3 | subtype:4)
        _xduce_types "$file" "$word"
        ;;
    esac
    return 0
}

# The scripts: their options, types of the file that is their first word, and else files.
_xduce_script() {
    local word=${COMP_WORDS[COMP_CWORD]} script=${COMP_WORDS[0]##*/xduce-} file='' place=0 option='' each
    local options='dtd:--elements explain:--cost explain:--seconds= explain:--places= format:--check format:--flat format:--write join:--places= language-server:--stdio lint:--places= where:--all where:--places= xml:--types= xml:--dtd= xml:--places='
    script=${script#xduce-}
    COMPREPLY=()
    if [[ $word == -* ]]; then
        for each in $options; do
            each=${each%=}
            [[ $each == "$script:$word"* ]] && COMPREPLY+=("${each#*:}")
        done
        return 0
    fi
    # (a word after an option that has a value is that value, and a file)
    for each in "${COMP_WORDS[@]:1:COMP_CWORD-1}"; do
        if [[ $each == -* ]]; then
            option=$each
        elif [[ " $options " == *" $script:$option= "* ]]; then
            option=''
        else
            ((++place == 1)) && file=$each
            option=''
        fi
    done
    [[ " $options " == *" $script:$option= "* ]] && place=-1
    ((++place))
    case $script:$place in
    validate:2 | versions:3 | where:2)
        _xduce_types "$file" "$word"
        ;;
    *)
        _xduce_files "$word"
        ;;
    esac
    return 0
}

complete -F _xduce xduce ./xduce
complete -F _xduce_script xduce-check-proof xduce-dtd xduce-expand xduce-explain xduce-format xduce-join xduce-language-server xduce-lint xduce-rng xduce-validate xduce-versions xduce-where xduce-xml
