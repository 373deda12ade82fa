# How the scripts beside this make an edit: the form is that of a crate's must-fail/.
# edit DIR FILE: makes the edit's replacements, each of a text that stands in its file once
edit() {
    local file='' old='' line
    while IFS= read -r line || [ -n "$line" ]; do
        case $line in
        'file: '*) file=$1/${line#file: } ;;
        'old: '*) old=${line#old: } ;;
        'new: '*)
            [ "$(grep -oF -- "$old" "$file" | wc -l)" = 1 ] || return 1
            OLD=$old NEW=${line#new: } awk '{ at = index($0, ENVIRON["OLD"]); print at ? substr($0, 1, at - 1) ENVIRON["NEW"] substr($0, at + length(ENVIRON["OLD"])) : $0 }' "$file" >"$file.new" &&
                mv "$file.new" "$file"
            ;;
        esac
    done <"$2"
}
