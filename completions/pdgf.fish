# Completions of pdgf for fish: modes, the options that a mode takes, files, folders, and the names of a schema's tables.
# Read by `source completions/pdgf.fish`, or from a folder of completions. .ci/completions compares it with ./pdgf --help.

# The mode and the schema before the cursor, each on a line.
function __pdgf_places
    set -l is_value no
    for word in (commandline -opc)[2..]
        if test $is_value = yes
            set is_value no
        else if string match -q -- '-*' $word
            string match -q -- '*=*' $word; or set is_value yes
        else
            echo $word
        end
    end
end

# Whether an option may come: it isn't there yet, and its mode is one of these, or there is no mode yet.
function __pdgf_takes
    set -l words (commandline -opc)
    # Its value may come last.
    if contains -- --$argv[1] $words[..-2]; or string match -q -- "--$argv[1]=*" $words
        return 1
    end
    set -l places (__pdgf_places)
    test (count $places) = 0; or contains -- $places[1] $argv[2..]
end

function __pdgf_wants_mode
    test (count (__pdgf_places)) = 0
end

function __pdgf_wants_schema
    set -l places (__pdgf_places)
    test (count $places) = 1; and test $places[1] != sample
end

# Files in TOML, and folders.
function __pdgf_toml_files
    __fish_complete_suffix .toml | string match -r '.*(?:\.toml|/)(?:\t.*)?$'
end

# The names of a schema's tables: the keys `name` of its [[table]] parts, without those of inline tables within them.
function __pdgf_tables
    set -l places (__pdgf_places)
    set -l schema (string replace -r '^~/' "$HOME/" -- $places[2])
    test -f "$schema"; and awk '
        { rest = $0; gsub(/"([^"\\\\]|\\\\.)*"|\'[^\']*\'/, "", rest); sub(/#.*/, "", rest) }
        depth == 0 && rest ~ /^[ \t]*\[/ { in_table = rest ~ /^[ \t]*\[\[[ \t]*table[ \t]*\]\]/; next }
        depth == 0 && in_table && rest ~ /^[ \t]*name[ \t]*=/ { split($0, part, /["\']/); print part[2] }
        { depth += gsub(/[[{]/, "", rest) - gsub(/[]}]/, "", rest) }
    ' $schema
end

# The formats that the mode takes.
function __pdgf_formats
    set -l places (__pdgf_places)
    printf '%s\n' copy csv
    test "$places[1]" = apply; or echo sql
end

complete -c pdgf -f
complete -c pdgf -n __pdgf_wants_mode -a snapshot -d 'the tables as they stand at unit T'
complete -c pdgf -n __pdgf_wants_mode -a unit -d 'what unit T deletes, updates and inserts in each table'
complete -c pdgf -n __pdgf_wants_mode -a apply -d 'the tables at unit T, made from the tables at unit S and the later changes'
complete -c pdgf -n __pdgf_wants_mode -a undo -d 'what takes each table at unit T back to the unit before'
complete -c pdgf -n __pdgf_wants_mode -a revert -d 'the tables at unit S, made from the tables at unit T and the undo texts'
complete -c pdgf -n __pdgf_wants_mode -a details -d 'a detail table as it stands at unit T'
complete -c pdgf -n __pdgf_wants_mode -a details-unit -d 'what unit T deletes, updates and inserts in a detail table'
complete -c pdgf -n __pdgf_wants_mode -a details-apply -d 'a detail table at unit T, made from its lines at unit S and the later changes'
complete -c pdgf -n __pdgf_wants_mode -a row -d 'the life of one row, and how it stands at unit T'
complete -c pdgf -n __pdgf_wants_mode -a check -d 'a line for each table of the schema: rows, sure life, cost, longest line'
complete -c pdgf -n __pdgf_wants_mode -a play -d 'the units 0 to T, played into a new SQLite database'
complete -c pdgf -n __pdgf_wants_mode -a sample -d 'a summary of tables of its own, for a first trial'
complete -c pdgf -n __pdgf_wants_schema -k -a '(__pdgf_toml_files)'

complete -c pdgf -n '__pdgf_takes unit snapshot unit undo details details-unit row' -l unit -x -d 'the unit, from 0 to the schema\'s last one'
complete -c pdgf -n '__pdgf_takes from apply revert details-apply' -l from -x -d 'the unit of the tables that are read'
complete -c pdgf -n '__pdgf_takes to apply revert details-apply play' -l to -x -d 'the unit of the tables that are written, or the last one that is played'
complete -c pdgf -n '__pdgf_takes in apply revert details-apply' -l in -x -a '(__fish_complete_directories)' -d 'the folder of the files that are read'
complete -c pdgf -n '__pdgf_takes out snapshot unit apply undo revert details details-unit details-apply' -l out -x -a '(__fish_complete_directories)' \
    -d 'writes files to the folder DIR in place of the standard output'
complete -c pdgf -n '__pdgf_takes table snapshot unit apply undo revert row' -l table -x -a '(__pdgf_tables)' -d 'only table N'
complete -c pdgf -n '__pdgf_takes key row' -l key -x -d 'the key of the row'
complete -c pdgf -n '__pdgf_takes spec details details-unit details-apply' -l spec -x -k -a '(__pdgf_toml_files)' \
    -d 'the file that declares the detail table'
complete -c pdgf -n '__pdgf_takes store play' -l store -r -F -a :memory: -d 'the path of the database, or :memory:'
complete -c pdgf -n '__pdgf_takes size sample' -l size -x -d 'the size of the tables, 1 to 1,000'
complete -c pdgf -n '__pdgf_takes format snapshot unit apply' -l format -x -a '(__pdgf_formats)' \
    -d 'the format of rows: copy, the default, csv, or sql, which apply doesn\'t take'
complete -c pdgf -n '__pdgf_takes header snapshot unit apply' -l header -x -a 'none names' -d 'what CSV begins with: none, the default, or names, the names of the columns'
complete -c pdgf -n '__pdgf_takes workers snapshot unit undo details details-unit sample' -l workers -x \
    -d 'how many workers make the rows, 1 to 64; the default is 4'
complete -c pdgf -n '__pdgf_takes package snapshot unit undo details details-unit sample' -l package -x \
    -d 'how many rows a worker makes at once, 1 to 1,000,000; the default is 1,000 or fewer'
complete -c pdgf -n '__pdgf_takes node snapshot unit' -l node -x -d 'the share that is written, counted from 0; the default is 0'
complete -c pdgf -n '__pdgf_takes nodes snapshot unit' -l nodes -x -d 'how many shares there are, 1 to 1,024; the default is 1'
