#!/bin/sh
# prototypes.sh [HEADER [TABLE]]: shows that padcheck.h and the Rust binding's table of calls have the entries as crates/padcheck has them, each with
# its parameters in their order, by their names and types, and that the table declares an entry by them as the header does. A lent slice is a pointer
# and a length. The last line is 'N passed, M failed'.
set -eu
cd "$(dirname "$0")/../.."
header=${1:-include/padcheck.h}
table=${2:-bindings/rust/src/lent.rs}
entries=crates/padcheck/src/lib.rt
out=target/c/prototypes
mkdir -p "$out"

# Declarations that begin at a line like `from` and end at one like `to`, each on one line with single blanks.
joined() {
    awk -v from="$2" -v to="$3" '
        $0 ~ from { on = 1; line = "" }
        on { sub(/^ +/, ""); line = line (line == "" ? "" : " ") $0 }
        on && $0 ~ to { on = 0; print line }' "$1" | sed 's/( /(/; s/, *)/)/'
}

# The entries without what their contracts say: 'NAME(PARAMETERS)'.
entries() {
    joined "$entries" '^pub extern "C" fn ' '[)] -> u32' | sed 's/^pub extern "C" fn //; s/) -> u32.*/)/'
}

# The entries in the form of the header.
in_c() {
    entries | awk '
        function c(type) {
            return type == "f32" ? "float" : type == "usize" ? "size_t" : "uint" substr(type, 2) "_t"
        }
        function pointer(name, type, lent) { return (lent ? "" : "const ") c(type) " *" name }
        {
            name = substr($0, 1, index($0, "(") - 1)
            rest = substr($0, index($0, "(") + 1)
            sub(/\)$/, "", rest)
            count = split(rest, parameters, ", ")
            said = ""
            for (i = 1; i <= count; i++) {
                split(parameters[i], word, ": ")
                type = word[2]
                lent = sub(/^&mut /, "", type)
                sub(/^&/, "", type)
                if (type ~ /;/)
                    one = pointer(word[1], substr(type, 2, index(type, ";") - 2), lent)
                else if (type ~ /^\[/)
                    one = pointer(word[1], substr(type, 2, length(type) - 2), lent) ", size_t " word[1] "_len"
                else
                    one = c(type) " " word[1]
                said = said (i == 1 ? "" : ", ") one
            }
            print "uint32_t " name "(" said ");"
        }'
}

# The entries in the form of the table, where the name goes without `padcheck_`.
in_table() {
    entries | sed 's/^padcheck_/pub fn /; s/\[u64; 32\]/Figures/; s/$/;/'
}

# How the table declares what is lent, each form behind its own, and the entry.
forms() {
    cat <<'END'
&[$element:ty]: $lent: *const $element, _: usize
&mut [$element:ty]: $lent: *mut $element, _: usize
&mut $numbers:ty: $lent: *mut $numbers
usize: $lent: usize
#[link_name = concat!("padcheck_", stringify!($name))]
fn entry($($declared)*) -> u32;
END
}
forms_found() {
    awk '
        /^    \(\$call:tt / && match($0, /\$lent:ident: .* \$\(,/) { form = substr($0, RSTART + 13, RLENGTH - 17) }
        form != "" && sub(/^ *\[\$\(\$declared\)\* /, "") { sub(/,\]$/, ""); print form ": " $0; form = "" }
        /^ *#\[link_name/ || /^ *fn entry\(/ { sub(/^ */, ""); print }' "$1"
}

in_c | sort >"$out/header.wanted"
joined "$header" '^[a-z][a-z0-9_ *]*padcheck_[a-z_]*[(]' ';$|^[{]' | grep -v '^static inline ' | sort >"$out/header.found" || :
in_table | sort >"$out/table.wanted"
joined "$table" '^    pub fn [a-z]' ';$' | sort >"$out/table.found"
forms >"$out/forms.wanted"
forms_found "$table" >"$out/forms.found"

failed=0
for of in header table forms; do
    if ! diff "$out/$of.wanted" "$out/$of.found"; then
        echo "failed: the entries in the $of: '<' is what crates/padcheck has, '>' what stands there"
        failed=$((failed + 1))
    fi
done
passed=$(cat "$out/header.wanted" "$out/table.wanted" "$out/forms.wanted" | wc -l)
if [ ! -s "$out/header.wanted" ]; then
    echo "failed: no entry was found in $entries"
    failed=1
fi
if [ "$failed" -ne 0 ]; then
    passed=0
fi
echo "$passed passed, $failed failed"
[ "$failed" -eq 0 ]
