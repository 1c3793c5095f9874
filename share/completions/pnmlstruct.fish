# Completions of pnmlstruct for fish: the task, then its options.
complete -c pnmlstruct -f
for line in \
    'check:how many places, transitions and arcs' \
    'canon:the canonical text' \
    'class:the class of the net' \
    'places:minimal semiflows of places' \
    'transitions:minimal semiflows of transitions' \
    'siphons:minimal siphons' \
    'traps:minimal traps' \
    'bounds:least bounds of the places' \
    'commoner:the siphon-trap verdict' \
    'live:liveness of a free-choice net' \
    'sub:which places are bounded whatever the marking' \
    'cert-bounds:a certificate of the bounds' \
    'cert-commoner:a certificate of the verdict' \
    'verify:check a certificate' \
    'resume:go on with a search for siphons' \
    'replay:fire a list of transitions' \
    'sample:a summary for N philosophers'
    set -l parts (string split -m 1 : $line)
    complete -c pnmlstruct -n __fish_use_subcommand -a $parts[1] -d $parts[2]
end
complete -c pnmlstruct -n 'not __fish_use_subcommand' -l net -x -d 'number of the net, 1 to 64'
complete -c pnmlstruct -n 'not __fish_use_subcommand' -l rows -x -d 'candidate rows of a step, 1 to 100000'
complete -c pnmlstruct -n 'not __fish_use_subcommand' -l sets -x -d 'grown siphons or traps, 1 to 1000000'
