# Completion of hookhost-reads in fish, made by share/make.py from what its help prints. To use it, put this file into
# ~/.config/fish/completions.

# Whether files follow the last option.
function __hookhost_reads_takes_files
    set -l last ''
    for word in (commandline -opc)[2..-1]
        test $word = --; and break
        string match -q -- '-?*' $word; and set last $word
    end
    test "$last" = --files
end

complete -c hookhost-reads -f
complete -c hookhost-reads -n 'not __fish_contains_opt all-files files' -l all-files -d 'Takes all staged files'
complete -c hookhost-reads -n 'not __fish_contains_opt files all-files' -l files -d 'Takes these staged files'
complete -c hookhost-reads -n 'not __fish_contains_opt each' -l each -d 'Hands each file alone'
complete -c hookhost-reads -n 'not __fish_contains_opt cautious' -l cautious -d 'Takes the keys of a cautious run'
complete -c hookhost-reads -n 'not __fish_contains_opt -s h help' -s h -l help -d 'Prints this help'
complete -c hookhost-reads -n __hookhost_reads_takes_files -F
