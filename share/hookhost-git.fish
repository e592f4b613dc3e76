# Completion of hookhost-git in fish. To use it, put this file into ~/.config/fish/completions.

# Whether the command is this one.
function __hookhost_git_is
    set -l words (commandline -opc)
    test (count $words) -gt 1; and contains -- $words[2] $argv
end

# Whether the last option is --files, so that files follow.
function __hookhost_git_takes_files
    __hookhost_git_is run; or return
    set -l last ''
    for word in (commandline -opc)[3..-1]
        string match -q -- '-?*' $word; and test $word != --; and set last $word
    end
    test "$last" = --files
end

function __hookhost_git_commits
    echo HEAD
    git for-each-ref --format='%(refname:short)' 2>/dev/null
end

set -l types pre-commit pre-merge-commit prepare-commit-msg commit-msg post-commit
complete -c hookhost-git -f
complete -c hookhost-git -n __fish_is_first_token -a install -d 'Makes Git run the hooks at each commit'
complete -c hookhost-git -n __fish_is_first_token -a uninstall -d 'Removes the hooks that install wrote'
complete -c hookhost-git -n __fish_is_first_token -a run -d 'Runs the hooks on the files that a commit would change now'
complete -c hookhost-git -n __fish_is_first_token -a remove -d 'Removes the working files that the hooks of the last run removed'
complete -c hookhost-git -n __fish_is_first_token -a hook -d 'What Git calls'
complete -c hookhost-git -n '__fish_is_first_token; or __hookhost_git_is install uninstall remove run' -s h -l help -d 'Prints the help'
complete -c hookhost-git -n __fish_is_first_token -l version -d 'Prints the version of hookhost'
complete -c hookhost-git -n '__hookhost_git_is hook' -a "$types" -d 'What Git calls'
complete -c hookhost-git -n '__hookhost_git_is install' -s t -l hook-type -x -a "$types" -d 'Installs the hook of this type'
complete -c hookhost-git -n '__hookhost_git_is run' -s a -l all-files -d 'Takes all files of the index'
complete -c hookhost-git -n '__hookhost_git_is run' -l files -d 'Takes these files of the index'
complete -c hookhost-git -n '__hookhost_git_is run' -l from-ref -x -a '(__hookhost_git_commits)' -d 'Takes the files that differ from this commit on'
complete -c hookhost-git -n '__hookhost_git_is run' -l to-ref -x -a '(__hookhost_git_commits)' -d 'Takes the files that differ up to this commit'
complete -c hookhost-git -n '__hookhost_git_is run' -l fresh -d 'Starts each command, also if its answer is cached'
complete -c hookhost-git -n '__hookhost_git_is run' -s v -l verbose -d 'Prints what each hook printed, and how many were cached'
complete -c hookhost-git -n '__hookhost_git_is run' -l show-diff-on-failure -d 'Prints what the hooks changed, if one failed'
complete -c hookhost-git -n '__hookhost_git_is run' -l color -x -a 'auto always never' -d 'Colors how hooks ended'
complete -c hookhost-git -n __hookhost_git_takes_files -F
