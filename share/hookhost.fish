# Completion of hookhost in fish, made by share/make.py from what the program's help prints. To use it, put this file
# into ~/.config/fish/completions.

# Whether the command is this one.
function __hookhost_is
    set -l words (commandline -opc)
    test (count $words) -gt 1; and test "$words[2]" = $argv[1]
end

# Whether the command is this one, and it has fewer values than so many so far, or takes any number.
function __hookhost_takes
    __hookhost_is $argv[1]; or return
    set -l words (commandline -opc)
    set -l given 0
    set -l is_pending 0
    set -l is_ended 0
    for word in $words[3..-1]
        if test $is_pending = 1
            set is_pending 0
        else if test $is_ended = 1; or not string match -q -- '-?*' $word
            set given (math $given + 1)
        else if test $word = --
            set is_ended 1
        else if contains -- $word --color --jobs --chmod --paths-from --commit --hook-stage --only -m --limit
            set is_pending 1
        end
    end
    test $argv[2] = any; or test $given -lt $argv[2]
end

complete -c hookhost -f
complete -c hookhost -n __fish_is_first_token -a init -d 'Makes a new repository in the current folder'
complete -c hookhost -n __fish_is_first_token -a try -d 'Runs the hooks of a configuration on files, and prints the report'
complete -c hookhost -n __fish_is_first_token -a check -d 'Prints how many hooks .pre-commit-config.yaml has, and its ignored keys'
complete -c hookhost -n __fish_is_first_token -a explain -d 'Says why a configuration is refused, or what its hooks will do'
complete -c hookhost -n __fish_is_first_token -a add -d 'Stages files of the current folder'
complete -c hookhost -n __fish_is_first_token -a rm -d 'Takes paths out of the staged files'
complete -c hookhost -n __fish_is_first_token -a status -d 'Prints which staged files differ from those of the last commit'
complete -c hookhost -n __fish_is_first_token -a cat -d 'Prints the bytes of a staged file, of its fix or of a commit\'s file'
complete -c hookhost -n __fish_is_first_token -a run -d 'Runs the hooks of the staged configuration on staged files, and prints the report'
complete -c hookhost -n __fish_is_first_token -a run-files -d 'Runs the hooks of the staged configuration on the named staged files'
complete -c hookhost -n __fish_is_first_token -a hook -d 'Runs the hooks of one stage of a commit that another program makes'
complete -c hookhost -n __fish_is_first_token -a fixes -d 'Prints the fixes, which accept applies to the staged files'
complete -c hookhost -n __fish_is_first_token -a accept -d 'Applies the fixes to the staged files, and prints how many there were'
complete -c hookhost -n __fish_is_first_token -a commit -d 'Commits the staged files, through the hooks of a commit'
complete -c hookhost -n __fish_is_first_token -a log -d 'Prints the commits, the newest first'
complete -c hookhost -n __fish_is_first_token -a show -d 'Prints a commit\'s message and its paths'
complete -c hookhost -n __fish_is_first_token -a memory -d 'Prints how many results of hooks\' commands are cached, or limits them'
complete -c hookhost -n __fish_is_first_token -a forget -d 'Drops all cached results, and prints how many there were'
complete -c hookhost -n '__fish_is_first_token; and not __fish_contains_opt -s h help' -s h -l help -d 'Print help'
complete -c hookhost -n '__fish_is_first_token; and not __fish_contains_opt -s V version' -s V -l version -d 'Print version'
complete -c hookhost -n '__hookhost_is init; and not __fish_contains_opt -s h help' -s h -l help -d 'Print help'
complete -c hookhost -n '__hookhost_is try' -l color -x -a 'auto always never' -d 'Colors how hooks ended: always, never, or auto, at a terminal; without it auto'
complete -c hookhost -n '__hookhost_is try' -l jobs -x -d 'Runs at most so many commands of hooks at the same time, from 1 to 256'
complete -c hookhost -n '__hookhost_is try; and not __fish_contains_opt -s h help' -s h -l help -d 'Print help'
complete -c hookhost -n '__hookhost_takes try any' -F
complete -c hookhost -n '__hookhost_is check; and not __fish_contains_opt -s h help' -s h -l help -d 'Print help'
complete -c hookhost -n '__hookhost_is explain; and not __fish_contains_opt -s h help' -s h -l help -d 'Print help'
complete -c hookhost -n '__hookhost_takes explain 1' -F
complete -c hookhost -n '__hookhost_is add' -l chmod -x -a '+x' -d 'The mode of the files: +x makes each executable'
complete -c hookhost -n '__hookhost_is add' -l paths-from -r -F -d 'A file of paths, each ended by a NUL byte; - is standard input'
complete -c hookhost -n '__hookhost_is add; and not __fish_contains_opt -s h help' -s h -l help -d 'Print help'
complete -c hookhost -n '__hookhost_takes add any' -F
complete -c hookhost -n '__hookhost_is rm' -l paths-from -r -F -d 'A file of paths, each ended by a NUL byte; - is standard input'
complete -c hookhost -n '__hookhost_is rm; and not __fish_contains_opt -s h help' -s h -l help -d 'Print help'
complete -c hookhost -n '__hookhost_takes rm any' -F
complete -c hookhost -n '__hookhost_is status; and not __fish_contains_opt -s h help' -s h -l help -d 'Print help'
complete -c hookhost -n '__hookhost_is cat; and not __fish_contains_opt fixed' -l fixed -d 'Prints the bytes that accept would stage in place of them'
complete -c hookhost -n '__hookhost_is cat' -l commit -x -d 'Prints the bytes in the commit with this number'
complete -c hookhost -n '__hookhost_is cat; and not __fish_contains_opt -s h help' -s h -l help -d 'Print help'
complete -c hookhost -n '__hookhost_takes cat 1' -F
complete -c hookhost -n '__hookhost_is run; and not __fish_contains_opt all-files' -l all-files -d 'Takes all staged files, not only those that differ from the last commit'
complete -c hookhost -n '__hookhost_is run' -l hook-stage -x -a 'pre-commit manual' -d 'The stage whose hooks are run, pre-commit or manual; without it pre-commit'
complete -c hookhost -n '__hookhost_is run; and not __fish_contains_opt fresh' -l fresh -d 'Starts every command, also if its result is cached'
complete -c hookhost -n '__hookhost_is run; and not __fish_contains_opt cautious' -l cautious -d 'Counts every file as seen by a hook that doesn\'t say which, and takes no failure from the cache'
complete -c hookhost -n '__hookhost_is run; and not __fish_contains_opt verbose' -l verbose -d 'Prints the output of every hook, and how many results came from the cache'
complete -c hookhost -n '__hookhost_is run' -l color -x -a 'auto always never' -d 'Colors how hooks ended: always, never, or auto, at a terminal; without it auto'
complete -c hookhost -n '__hookhost_is run' -l jobs -x -d 'Runs at most so many commands of hooks at the same time, from 1 to 256'
complete -c hookhost -n '__hookhost_is run; and not __fish_contains_opt -s h help' -s h -l help -d 'Print help'
complete -c hookhost -n '__hookhost_is run-files' -l only -x -d 'The id or alias of the hooks to run; without it all of the stage'
complete -c hookhost -n '__hookhost_is run-files' -l hook-stage -x -a 'pre-commit manual' -d 'The stage whose hooks are run, pre-commit or manual; without it pre-commit'
complete -c hookhost -n '__hookhost_is run-files; and not __fish_contains_opt fresh' -l fresh -d 'Starts every command, also if its result is cached'
complete -c hookhost -n '__hookhost_is run-files; and not __fish_contains_opt cautious' -l cautious -d 'Counts every file as seen by a hook that doesn\'t say which, and takes no failure from the cache'
complete -c hookhost -n '__hookhost_is run-files; and not __fish_contains_opt verbose' -l verbose -d 'Prints the output of every hook, and how many results came from the cache'
complete -c hookhost -n '__hookhost_is run-files' -l color -x -a 'auto always never' -d 'Colors how hooks ended: always, never, or auto, at a terminal; without it auto'
complete -c hookhost -n '__hookhost_is run-files' -l jobs -x -d 'Runs at most so many commands of hooks at the same time, from 1 to 256'
complete -c hookhost -n '__hookhost_is run-files' -l paths-from -r -F -d 'A file of paths, each ended by a NUL byte; - is standard input'
complete -c hookhost -n '__hookhost_is run-files; and not __fish_contains_opt -s h help' -s h -l help -d 'Print help'
complete -c hookhost -n '__hookhost_takes run-files any' -F
complete -c hookhost -n '__hookhost_is hook; and not __fish_contains_opt fresh' -l fresh -d 'Starts every command, also if its result is cached'
complete -c hookhost -n '__hookhost_is hook; and not __fish_contains_opt cautious' -l cautious -d 'Counts every file as seen by a hook that doesn\'t say which, and takes no failure from the cache'
complete -c hookhost -n '__hookhost_is hook' -l color -x -a 'auto always never' -d 'Colors how hooks ended: always, never, or auto, at a terminal; without it auto'
complete -c hookhost -n '__hookhost_is hook' -l jobs -x -d 'Runs at most so many commands of hooks at the same time, from 1 to 256'
complete -c hookhost -n '__hookhost_is hook; and not __fish_contains_opt -s h help' -s h -l help -d 'Print help'
complete -c hookhost -n '__hookhost_is fixes; and not __fish_contains_opt -s h help' -s h -l help -d 'Print help'
complete -c hookhost -n '__hookhost_is accept; and not __fish_contains_opt -s h help' -s h -l help -d 'Print help'
complete -c hookhost -n '__hookhost_is commit; and not __fish_contains_opt no-verify' -l no-verify -d 'Leaves out the hooks of pre-commit and commit-msg'
complete -c hookhost -n '__hookhost_is commit' -l color -x -a 'auto always never' -d 'Colors how hooks ended: always, never, or auto, at a terminal; without it auto'
complete -c hookhost -n '__hookhost_is commit' -l jobs -x -d 'Runs at most so many commands of hooks at the same time, from 1 to 256'
complete -c hookhost -n '__hookhost_is commit' -s m -x -d 'The message, which hooks may change'
complete -c hookhost -n '__hookhost_is commit; and not __fish_contains_opt -s h help' -s h -l help -d 'Print help'
complete -c hookhost -n '__hookhost_is log; and not __fish_contains_opt -s h help' -s h -l help -d 'Print help'
complete -c hookhost -n '__hookhost_is show; and not __fish_contains_opt -s h help' -s h -l help -d 'Print help'
complete -c hookhost -n '__hookhost_is memory' -l limit -x -d 'Keeps at most so many cached results from now on: from 1 to 100000'
complete -c hookhost -n '__hookhost_is memory; and not __fish_contains_opt -s h help' -s h -l help -d 'Print help'
complete -c hookhost -n '__hookhost_is forget; and not __fish_contains_opt -s h help' -s h -l help -d 'Print help'
