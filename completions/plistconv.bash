# Completion of plistconv for bash.
_plistconv_topics='
    TooShort BadHeader BadTrailer BadOffset BadReference CutObject BadMarker NullObject UidObject
    SetObject NotAscii WideInteger KeyNotText DuplicateKey Cycle TooDeep TooManyNodes TooMuchPayload
    BadUtf8 XmlForm UnexpectedCharacter UnclosedString UnclosedComment BadEscape OctalRange OddData
    BadData Expected Junk BadUtf16 NotInOpenStep ReadFailed WriteFailed InputTooLarge OutOfMemory C0
    C1 C2 C3 C4 C5 C6 C7
'
_plistconv() {
    local word=${COMP_WORDS[COMP_CWORD]} commands='convert same lint check print explain' name offered=
    COMPREPLY=()
    case $COMP_CWORD-${COMP_WORDS[1]} in
        1-*) offered="$commands help --help --version" ;;
        2-convert) offered='binary1 openstep --help' ;;
        2-explain) offered=$_plistconv_topics ;;
        2-help) offered=$commands ;;
        *-explain | *-help) ;;
        *)
            compopt -o filenames
            while IFS= read -r name; do
                # The parts of a name with a line end are no files. A dash would begin an option.
                [[ $name != ["~$"]* && ! -e $name && ! -L $name ]] || COMPREPLY+=("${name/#-/./-}")
            done < <(compgen -f -- "$word")
            [[ $word != -* ]] || offered=--help
            [[ $word-${COMP_WORDS[1]} != -*-check ]] || offered+=' --with-filename'
            ;;
    esac
    mapfile -t -O ${#COMPREPLY[@]} COMPREPLY < <(compgen -W "$offered" -- "$word")
}
complete -F _plistconv plistconv
