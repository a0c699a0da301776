# Completion of plistconv for fish. A name with a dash gets no `./` as in the other shells, since fish
# offers no word that begins with a dot.

# Succeeds if the argument COUNT of one of these commands is completed.
function __plistconv_argument -a count
    set -l words (commandline -opc)
    test (count $words) -eq (math $count + 1); and contains -- $words[2] $argv[2..]
end

complete -c plistconv -n __fish_use_subcommand -f -a convert -d 'Write a property list to another file'
complete -c plistconv -n __fish_use_subcommand -f -a same -d 'Compare the values of two property lists'
complete -c plistconv -n __fish_use_subcommand -f -a lint -d 'Check whether a file is a property list'
complete -c plistconv -n __fish_use_subcommand -f -a check -d 'Check whether a file is already canonical'
complete -c plistconv -n __fish_use_subcommand -f -a print -d 'Print the value of a property list'
complete -c plistconv -n __fish_use_subcommand -f -a explain -d 'Explain a refusal or a rule'
complete -c plistconv -n __fish_use_subcommand -f -a help -d 'Print help'
complete -c plistconv -n __fish_use_subcommand -f -s h -l help -d 'Print help'
complete -c plistconv -n __fish_use_subcommand -f -s V -l version -d 'Print name and version'
complete -c plistconv -n 'string match -qr "^(help|explain)\$" -- (commandline -opc)[2]' -f
complete -c plistconv -n 'not __fish_use_subcommand' -s h -l help -d 'Print help'
complete -c plistconv -n 'string match -q check -- (commandline -opc)[2]' -l with-filename -d 'Print the path of a single file too'
complete -c plistconv -f -n '__plistconv_argument 1 convert' -a 'binary1 openstep'
complete -c plistconv -f -n '__plistconv_argument 1 help' -a 'convert same lint check print explain'
complete -c plistconv -f -n '__plistconv_argument 1 explain' -a '
    TooShort BadHeader BadTrailer BadOffset BadReference CutObject BadMarker NullObject UidObject
    SetObject NotAscii WideInteger KeyNotText DuplicateKey Cycle TooDeep TooManyNodes TooMuchPayload
    BadUtf8 XmlForm UnexpectedCharacter UnclosedString UnclosedComment BadEscape OctalRange OddData
    BadData Expected Junk BadUtf16 NotInOpenStep ReadFailed WriteFailed InputTooLarge OutOfMemory C0
    C1 C2 C3 C4 C5 C6 C7
'
