# Completions of pdgf for bash: modes, the options that a mode takes, files, folders, and the names of a schema's tables.
# Read by `. completions/pdgf.bash`, or from where bash-completion finds it. .ci/completions compares it with ./pdgf --help.

# The options that a mode takes. Where there is no mode yet, all.
_pdgf_options() {
    case $1 in
        snapshot | unit) echo --unit --table --out --format --header --workers --package --node --nodes ;;
        apply) echo --from --to --in --table --out --format --header ;;
        undo) echo --unit --table --out --workers --package ;;
        revert) echo --from --to --in --table --out ;;
        details | details-unit) echo --spec --unit --out --workers --package ;;
        details-apply) echo --spec --from --to --in --out ;;
        row) echo --table --key --unit ;;
        play) echo --to --store ;;
        sample) echo --size --workers --package ;;
        '') echo --unit --from --to --in --out --table --key --spec --store --size --format --header --workers --package --node --nodes ;;
    esac
}

# The names of a schema's tables: the keys `name` of its [[table]] parts, without those of inline tables within them.
_pdgf_tables() {
    [ ! -f "$1" ] || awk '
        { rest = $0; gsub(/"([^"\\]|\\.)*"|'\''[^'\'']*'\''/, "", rest); sub(/#.*/, "", rest) }
        depth == 0 && rest ~ /^[ \t]*\[/ { in_table = rest ~ /^[ \t]*\[\[[ \t]*table[ \t]*\]\]/; next }
        depth == 0 && in_table && rest ~ /^[ \t]*name[ \t]*=/ { split($0, part, /["'\'']/); print part[2] }
        { depth += gsub(/[[{]/, "", rest) - gsub(/[]}]/, "", rest) }
    ' "$1"
}

# Completes the word by files that have a suffix, and by folders.
_pdgf_files() {
    compopt -o filenames 2>/dev/null
    mapfile -t COMPREPLY < <({ compgen -f -X "!*$2" -- "$1"; compgen -d -- "$1"; } | sort -u)
}

# Completes the value of an option, by the schema and the mode.
_pdgf_value() {
    case $1 in
        --in | --out)
            compopt -o filenames 2>/dev/null
            mapfile -t COMPREPLY < <(compgen -d -- "$2")
            ;;
        --spec) _pdgf_files "$2" .toml ;;
        --store)
            _pdgf_files "$2" ''
            [ -n "$2" ] || COMPREPLY+=(:memory:)
            ;;
        --format) mapfile -t COMPREPLY < <(compgen -W "copy csv$([ "$4" = apply ] || echo ' sql')" -- "$2") ;;
        --header) mapfile -t COMPREPLY < <(compgen -W 'none names' -- "$2") ;;
        --table) mapfile -t COMPREPLY < <(compgen -W "$(_pdgf_tables "$3")" -- "$2") ;;
    esac
}

_pdgf() {
    local word mode= schema= option= given=' ' current=${COMP_WORDS[COMP_CWORD]} place joined= options=
    COMPREPLY=()
    # `=` is a word of its own, unless COMP_WORDBREAKS lacks it.
    for ((place = 1; place < COMP_CWORD; place++)); do
        word=${COMP_WORDS[place]}
        if [ -n "$option" ]; then
            [ "$word" = = ] || option=
        elif [[ $word == --*=* ]]; then
            given+="${word%%=*} "
        elif [[ $word == -* ]]; then
            given+="$word "
            option=$word
        elif [ -z "$mode" ]; then
            mode=$word
        elif [ -z "$schema" ]; then
            schema=${word/#\~\//$HOME/}
        fi
    done
    if [ -n "$option" ] && [ "$current" = = ]; then current=; fi
    if [ -z "$option" ] && [[ $current == --*=* ]]; then
        option=${current%%=*}
        joined=$option=
        current=${current#*=}
    fi
    if [ -n "$option" ]; then
        _pdgf_value "$option" "$current" "$schema" "$mode"
        COMPREPLY=("${COMPREPLY[@]/#/$joined}")
    elif [ -z "$mode" ] && [[ $current != -* ]]; then
        mapfile -t COMPREPLY < <(compgen -W 'snapshot unit apply undo revert details details-unit details-apply row check play sample' -- "$current")
    elif [ -z "$schema" ] && [ "$mode" != sample ] && [[ $current != -* ]]; then
        _pdgf_files "$current" .toml
    else
        for word in $(_pdgf_options "$mode"); do [[ $given == *" $word "* ]] || options+="$word "; done
        mapfile -t COMPREPLY < <(compgen -W "$options" -- "$current")
    fi
}

complete -F _pdgf pdgf
