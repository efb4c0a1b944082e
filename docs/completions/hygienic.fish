# Completions of hygienic for fish. Copy this file to where fish looks for completions.

# Whether the command before the cursor is one of these; `none` stands for no command yet.
function __hygienic_is
    set -l words (commandline -opc)
    for word in $words[2..]
        if not string match -q -- '-*' $word
            contains -- $word $argv
            return
        end
    end
    contains -- none $argv
end

complete -c hygienic -f
complete -c hygienic -n '__hygienic_is none help' -a run -d 'Run a script, and answer each of its lines'
complete -c hygienic -n '__hygienic_is none help' -a race -d 'Run a scenario, each worker in a thread'
complete -c hygienic -n '__hygienic_is none help' -a audit -d 'Check each reply of a journal'
complete -c hygienic -n '__hygienic_is none help' -a serve -d 'Answer each line as it comes'
complete -c hygienic -n '__hygienic_is none help' -a chart -d 'Draw a journal'
complete -c hygienic -n '__hygienic_is none help' -a help -d 'Print the help of a command'

complete -c hygienic -n '__hygienic_is none run race audit serve chart' -s h -l help -d 'Print help'
complete -c hygienic -n '__hygienic_is none' -s V -l version -d 'Print the version'
complete -c hygienic -n '__hygienic_is run serve' -l tasks -x -d 'How many tasks may be present at once'
complete -c hygienic -n '__hygienic_is run serve' -l conflicts -x -d 'How many conflicts may stand at once'
complete -c hygienic -n '__hygienic_is serve' -l passes -x -d 'How many passes may ask, in requests with numbers'
complete -c hygienic -n '__hygienic_is serve' -l resume -x -a '(__fish_complete_path)' -d 'Go on with a journal'
complete -c hygienic -n '__hygienic_is run race' -l journal -d 'Write the journal in place of the answers'
complete -c hygienic -n '__hygienic_is audit' -l long -d 'Take a journal of any length'
complete -c hygienic -n '__hygienic_is chart' -l svg -d 'Write an SVG'
complete -c hygienic -n '__hygienic_is chart' -l html -d 'Write a page'
complete -c hygienic -n '__hygienic_is chart' -l trace -d 'Write a trace, for Perfetto'
complete -c hygienic -n '__hygienic_is chart' -l dot -d 'Write a graph, for Graphviz'
complete -c hygienic -n '__hygienic_is chart' -l from -x -d 'The first line that is drawn'
complete -c hygienic -n '__hygienic_is chart' -l to -x -d 'The last line that is drawn'
complete -c hygienic -n '__hygienic_is chart' -l name -x -d 'A name for a task, as 0.0=alice'
complete -c hygienic -n '__hygienic_is run race audit serve chart' -s q -l quiet -d 'Say nothing on standard error'
complete -c hygienic -n '__hygienic_is run race audit serve chart' -F
