# Completion of bloaty for fish: put it into ~/.config/fish/completions. Made by tools/dev/completions.

function __bloaty_sources
    # In quotes: without a comma it is empty, and not a list of nothing.
    set -l before (string match -r '^.*,' -- (commandline -ct))
    set -l words (commandline -opc)
    set -l names segments sections symbols rawsymbols compileunits inlines inputfiles
    if set -l index (contains -i -- -c $words); and test $index -lt (count $words)
        set -a names (string match -rg '\bname\s*:\s*["\']([^"\']*)["\']' < $words[(math $index + 1)])
    end
    for name in $names
        echo "$before$name"
    end
end

function __bloaty_options
    not contains -- -- (commandline -opc)
end

complete -c bloaty -n __bloaty_options -s d -x -a '(__bloaty_sources)' -d 'data sources, with commas between them'
complete -c bloaty -n __bloaty_options -s n -x -d 'how many rows below each row, 0 for all'
complete -c bloaty -n __bloaty_options -s s -x -a 'vm file both' -d 'which size orders the rows'
complete -c bloaty -n __bloaty_options -l domain -x -a 'vm file both' -d 'which sizes are shown'
complete -c bloaty -n __bloaty_options -s w -d 'do not shorten labels'
complete -c bloaty -n __bloaty_options -l csv -d 'write comma-separated values'
complete -c bloaty -n __bloaty_options -l tsv -d 'write values with tabs between them'
complete -c bloaty -n __bloaty_options -s c -r -F -d 'configuration with data sources of your own'
complete -c bloaty -n __bloaty_options -l source-filter -x -d 'count only what has this in a label'
complete -c bloaty -n __bloaty_options -l synth -x -d 'profile a synthetic file with N functions'
complete -c bloaty -n __bloaty_options -l debug-file -r -F -d 'take symbols, units and lines from this file'
complete -c bloaty -n __bloaty_options -l debug-fileoff -x -d 'explain this byte of the file'
complete -c bloaty -n __bloaty_options -l debug-vmaddr -x -d 'explain this address'
