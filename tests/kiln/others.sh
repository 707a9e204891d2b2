# Sourced by tests of kiln: images that are alike where the pigment maker's label, 68, is out of sight.
maker=68
# The words have ops below this: 0, those that there are, and one above them, which is unknown too.
ops=26

random_word() { echo $((RANDOM % ops * 16777216 + (RANDOM * 32768 + RANDOM) % 16777216)); }

# An image with other words of the maker's, any ops with any operands, and other registers of hers.
other_words() {
    local line
    while IFS= read -r line; do
        case $line in
        W,*,$maker,* | R,*,$maker,*) echo "${line%,*},$(random_word)" ;;
        *) echo "$line" ;;
        esac
    done <"$1"
}
