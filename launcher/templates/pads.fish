# fish completion for pads: commands, options, option values and files.
# @MADE@

# The words before the one that is typed, a line each, without pads and --progress.
function __pads_before
    set -l words (commandline -opc)
    set -e words[1]
    if test (count $words) -gt 0; and test "$words[1]" = --progress
        set -e words[1]
    end
    for word in $words
        echo $word
    end
end

# Whether the first word, or a command behind --progress, is typed now.
function __pads_first
    test (count (__pads_before)) -eq 0
end

# Whether nothing stands before the word that is typed, not even --progress.
function __pads_bare
    test (count (commandline -opc)) -eq 1
end

# Whether this is the first word, or the command behind --progress.
function __pads_after
    set -l words (__pads_before)
    test (count $words) -gt 0; and test "$words[1]" = $argv[1]
end

# The same, where the word number $argv[2] behind it is typed now; options are no words.
function __pads_word
    set -l words (__pads_before | string match -v -- '--*=*')
    __pads_after $argv[1]; and test (count $words) -eq $argv[2]
end

# The same, where an option is typed now.
function __pads_option
    __pads_after $argv[1]; and string match -q -- '-*' (commandline -ct)
end

# Files of descriptions and folders, or all files where there are none.
function __pads_descriptions
    set -l files (complete -C "'' "(commandline -ct))
    string match -er '(\.pads|/)(\t|$)' -- $files; or printf '%s\n' $files
end

complete -c pads -f
@LINES@
