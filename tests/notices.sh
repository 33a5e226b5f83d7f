#!/usr/bin/env bash
# The notices on the kit's crates that the program contains are those that the kit has, and the licence of this
# repository is the text that is known by its name.
set -u
cd "$(dirname -- "$0")/.." || exit 1
. tests/lib/common.bash

kit=$(sed -n 's/^kit: //p' release/NOTICES)
if ! command -v rt >"$work/found"; then
    lacking "the kit's notices (rt is not on PATH)"
elif [ "$(rt version)" != "$kit" ]; then
    echo "not compared: the kit is '$(rt version)', and that of release/NOTICES was '$kit'"
else
    expect 'release/NOTICES as the kit has it' 0 "$(<release/NOTICES)" release/make-notices
fi
# libraries: those of the kit that the crates use which the program stands on.
libraries() {
    sed '/^bag_tests:/d; /^bag_driver:/d; /^bag_examples:/d; /^#/d; s/.*://' crates.txt | tr ' ' '\n' |
        grep -v '^bag_' | sort -u
}
for library in $(libraries); do
    expect "a notice names $library" 0 '' grep -qw -e "$library" release/NOTICES
done
expect 'the crates use libraries of the kit' 0 '' [ -n "$(libraries)" ]
expect 'the names of both licences' 0 $'MIT License\n                                 Apache License' \
    grep -hx -m 1 'MIT License\| *Apache License' LICENSE-MIT LICENSE-APACHE
expect 'whose work it is' 0 'Copyright the Vuzkrid developers' grep Copyright LICENSE-MIT
if [ -e /usr/share/common-licenses/Apache-2.0 ]; then
    expect 'the text of Apache-2.0' 0 '' cmp LICENSE-APACHE /usr/share/common-licenses/Apache-2.0
fi
finish
