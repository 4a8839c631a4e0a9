# fish completion for pads: commands, options, option values and files.
# Made by launcher/make from launcher/commands.txt: edit that.

# The words before the one that is typed, a line each, without pads and --progress.
function __pads_before
    set -l words (commandline -opc)
    set -e words[1]
    if test (count $words) -gt 0; and test "$words[1]" = --progress
        set -e words[1]
    end
    for word in $words
        echo $word
    end
end

# Whether the first word, or a command behind --progress, is typed now.
function __pads_first
    test (count (__pads_before)) -eq 0
end

# Whether nothing stands before the word that is typed, not even --progress.
function __pads_bare
    test (count (commandline -opc)) -eq 1
end

# Whether this is the first word, or the command behind --progress.
function __pads_after
    set -l words (__pads_before)
    test (count $words) -gt 0; and test "$words[1]" = $argv[1]
end

# The same, where the word number $argv[2] behind it is typed now; options are no words.
function __pads_word
    set -l words (__pads_before | string match -v -- '--*=*')
    __pads_after $argv[1]; and test (count $words) -eq $argv[2]
end

# The same, where an option is typed now.
function __pads_option
    __pads_after $argv[1]; and string match -q -- '-*' (commandline -ct)
end

# Files of descriptions and folders, or all files where there are none.
function __pads_descriptions
    set -l files (complete -C "'' "(commandline -ct))
    string match -er '(\.pads|/)(\t|$)' -- $files; or printf '%s\n' $files
end

complete -c pads -f
complete -c pads -n __pads_first -a 'check' -d 'tell whether a description is accepted'
complete -c pads -n __pads_first -a 'parse' -d 'write one line of JSON for each record'
complete -c pads -n __pads_first -a 'print' -d 'write each clean record again, in one way of writing'
complete -c pads -n __pads_first -a 'summary' -d 'tell what all records come to, part by part'
complete -c pads -n __pads_first -a 'query' -d 'write the nodes of records that a path names and a filter keeps'
complete -c pads -n __pads_first -a 'selftest' -d 'make N records, read and print them, and tell how many are clean'
complete -c pads -n __pads_bare -a '--help' -d 'list the commands and options'
complete -c pads -n __pads_bare -a 'help' -d 'explain a command, or a word like this one'
complete -c pads -n __pads_bare -a '--version' -d 'print the version'
complete -c pads -n __pads_bare -a '--progress' -d 'show bytes, records and rate while the order runs'
complete -c pads -n __pads_bare -a 'explain' -d 'show what is wrong with a description, and how it is mended'
complete -c pads -n __pads_bare -a 'faults' -d 'show each fault of an input as compilers do, with totals'
complete -c pads -n __pads_bare -a 'csv' -d 'write fields of the clean records as CSV'
complete -c pads -n __pads_bare -a '--install' -d 'install program, help, man page and completions below a folder'
complete -c pads -n __pads_bare -a '--uninstall' -d 'take away what was installed there'
complete -c pads -n '__pads_word check 1' -a '(__pads_descriptions)'
complete -c pads -n '__pads_option check' -a '--coding=ascii --coding=ebcdic' -d 'the coding of characters'
complete -c pads -n '__pads_word parse 1' -a '(__pads_descriptions)'
complete -c pads -n '__pads_option parse' -a '--records=nl --records=term: --records=fixed: --records=rdw --records=whole' -d 'how the input is divided into records'
complete -c pads -n '__pads_option parse' -a '--coding=ascii --coding=ebcdic' -d 'the coding of characters'
complete -c pads -n '__pads_option parse' -a '--max=' -d 'the most bytes that a record may have'
complete -c pads -n '__pads_option parse' -a '--mask=both --mask=check --mask=set --mask=none' -d 'what is checked and what is kept, by declaration'
complete -c pads -n '__pads_option parse' -a '--scan=' -d 'how many bytes are passed over at most where a literal is looked for'
complete -c pads -n '__pads_option parse' -a '--jobs=' -d 'how many workers read at the same time'
complete -c pads -n '__pads_word print 1' -a '(__pads_descriptions)'
complete -c pads -n '__pads_option print' -a '--records=nl --records=term: --records=fixed: --records=rdw --records=whole' -d 'how the input is divided into records'
complete -c pads -n '__pads_option print' -a '--coding=ascii --coding=ebcdic' -d 'the coding of characters'
complete -c pads -n '__pads_option print' -a '--max=' -d 'the most bytes that a record may have'
complete -c pads -n '__pads_option print' -a '--scan=' -d 'how many bytes are passed over at most where a literal is looked for'
complete -c pads -n '__pads_option print' -a '--jobs=' -d 'how many workers read at the same time'
complete -c pads -n '__pads_word summary 1' -a '(__pads_descriptions)'
complete -c pads -n '__pads_option summary' -a '--records=nl --records=term: --records=fixed: --records=rdw --records=whole' -d 'how the input is divided into records'
complete -c pads -n '__pads_option summary' -a '--coding=ascii --coding=ebcdic' -d 'the coding of characters'
complete -c pads -n '__pads_option summary' -a '--max=' -d 'the most bytes that a record may have'
complete -c pads -n '__pads_option summary' -a '--mask=both --mask=check --mask=set --mask=none' -d 'what is checked and what is kept, by declaration'
complete -c pads -n '__pads_option summary' -a '--scan=' -d 'how many bytes are passed over at most where a literal is looked for'
complete -c pads -n '__pads_option summary' -a '--top=' -d 'the most values of each part that a summary tells'
complete -c pads -n '__pads_option summary' -a '--jobs=' -d 'how many workers read at the same time'
complete -c pads -n '__pads_word query 1' -a '(__pads_descriptions)'
complete -c pads -n '__pads_option query' -a '--records=nl --records=term: --records=fixed: --records=rdw --records=whole' -d 'how the input is divided into records'
complete -c pads -n '__pads_option query' -a '--coding=ascii --coding=ebcdic' -d 'the coding of characters'
complete -c pads -n '__pads_option query' -a '--max=' -d 'the most bytes that a record may have'
complete -c pads -n '__pads_option query' -a '--mask=both --mask=check --mask=set --mask=none' -d 'what is checked and what is kept, by declaration'
complete -c pads -n '__pads_option query' -a '--scan=' -d 'how many bytes are passed over at most where a literal is looked for'
complete -c pads -n '__pads_option query' -a '--jobs=' -d 'how many workers read at the same time'
complete -c pads -n '__pads_option selftest' -a '--jobs=' -d 'how many workers read at the same time'
complete -c pads -n '__pads_word help 1' -a 'check parse print summary query selftest --help help --version --progress explain faults csv --install --uninstall'
complete -c pads -n '__pads_word explain 1' -a '(__pads_descriptions)'
complete -c pads -n '__pads_word faults 1' -a '(__pads_descriptions)'
complete -c pads -n '__pads_word csv 1' -a '(__pads_descriptions)'
complete -c pads -n '__pads_word --install 1' -a '(__fish_complete_directories (commandline -ct))'
complete -c pads -n '__pads_word --uninstall 1' -a '(__fish_complete_directories (commandline -ct))'
