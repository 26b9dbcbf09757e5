#!/bin/bash
# Tries bin/release: the same commit gives the same bytes; what the package holds stands where it belongs, names no folder of
# this machine, and works from a tree that nobody writes to, for a user with an empty home; --uninstall takes away what
# --install wrote. With --chroot [FOLDER], as root, also in a root of Debian's base packages, which debootstrap makes in that
# folder (or a temporary one; one that is there is taken): `dpkg -i`, then all as an ordinary user.
#
# IRPX, IRP_VIEW, IRP_WORDS, IRP_ORDERS and IRP_LIVE name the programs; without them, they are those of bin/program. Each
# failure has a line of its own, and the last line is `N passed, M failed`. Ends with 0 where nothing failed, else with 1.
set -u
cd "$(dirname "$(readlink -f "$0")")" || exit 1
for it in dpkg-deb python3 git strip "${CC:-cc}"; do
    if ! command -v "$it" >/dev/null; then
        echo "skipped: a release can't be made here: there is no $it"
        exit 0
    fi
done
if ! git rev-parse HEAD >/dev/null 2>&1; then
    echo "skipped: a release is made of a commit, and this is no clone"
    exit 0
fi
room=$(mktemp -d) || exit 1
mounted=
trap '[ -z "$mounted" ] || umount "$mounted"; chmod -R u+w "$room"; rm -rf "$room"' EXIT
commit=$(git rev-parse HEAD)
passed=0
failed=0

# Counts a check, whose name is $1; the rest is a command that succeeds where the check is met.
meets() {
    local name=$1 said
    shift
    said=$("$@" 2>&1) && passed=$((passed + 1)) && return
    failed=$((failed + 1))
    printf 'failed: %s\n%s\n' "$name" "${said:0:1500}"
}

# Adds what a program tried, whose last line is `N passed, M failed`.
tally() {
    local said right wrong
    said=$("$@" 2>&1)
    read -r right _ wrong _ <<<"$(tail -n 1 <<<"$said")"
    sed '$d' <<<"$said"
    passed=$((passed + ${right:-0}))
    failed=$((failed + ${wrong:-1}))
}

# Runs bin/release with a stand-in for each program, which is small.
with_stand_ins() {
    IRPX=/bin/true IRP_VIEW=/bin/true IRP_WORDS=/bin/true IRP_ORDERS=/bin/true IRP_LIVE=/bin/true \
        ../bin/release --unproved "$@"
}

# The same bytes, whoever makes them and wherever.
(umask 022 && TZ=UTC with_stand_ins --out "$room/one" >/dev/null)
(umask 077 && TZ=Asia/Tokyo LC_ALL=C with_stand_ins --out "$room/two" >/dev/null)
meets 'two tarballs and a package' [ "$(find "$room/one" -name 'irp-*.tar.gz' -o -name 'irp_*.deb' | wc -l)" -eq 3 ]
answers=$(echo "$room"/one/irp-*-answers.tar.gz)
meets 'an answer for each lesson, and notes' [ "$(tar -tzf "$answers" | grep -cE 'answer/(driver\.c|history|protocol)|/notes\.html$')" -eq 16 ]
meets 'no answer in the package' [ "$(tar -tzf "$room"/one/irp-*-linux-*.tar.gz | grep -c '/answer/\|teaching/notes')" -eq 0 ]
meets 'the same bytes twice' diff -r "$room/one" "$room/two"
meets 'a version that is none' [ "$(with_stand_ins --version 'a b' >/dev/null 2>&1; echo $?)" -eq 2 ]

# Installed and taken away again, beside a file that was there.
mkdir -p "$room/prefix/bin"
touch "$room/prefix/bin/mine"
with_stand_ins --install "$room/prefix" >/dev/null
meets 'an installed irp' "$room/prefix/bin/irp" version
tar -tzf "$room"/one/irp-*-linux-*.tar.gz | sed -n 's|^[^/]*/\(.*[^/]\)$|\1|p' | sort >"$room/unpacked"
(cd "$room/prefix" && find . ! -type d ! -name mine ! -name installed -printf '%P\n') | sort >"$room/installed"
meets 'what is installed is what is unpacked' diff "$room/unpacked" "$room/installed"
with_stand_ins --uninstall "$room/prefix" >/dev/null
meets 'only what was there is left' [ "$(cd "$room/prefix" && find . -type f -o -type l | sort)" = ./bin/mine ]
meets 'no folder is left' [ "$(find "$room/prefix" -type d | wc -l)" -eq 2 ]

# The package, with the programs.
for name in irpx irp_view irp_words irp_orders irp_live; do
    variable=${name^^}
    [ -n "${!variable:-}" ] || export "$variable=$(../bin/program "$name" quick)"
done
../bin/release --unproved --out "$room/out" >/dev/null
package=$(echo "$room"/out/*.deb)
meets 'it says that the programs are unproved' grep -q 'NOT proved' <(dpkg-deb -f "$package" Description)
meets 'it needs Python and the C library' grep -qE '^libc6 \(>= 2\.[0-9]+\), .*python3' <(dpkg-deb -f "$package" Depends)
dpkg-deb -c "$package" >"$room/listed"
meets 'root owns all' [ "$(awk '$2 != "root/root"' "$room/listed")" = '' ]
meets 'nobody else writes' [ "$(grep -vE '^(l|.....-..-)' "$room/listed")" = '' ]
meets 'nothing stands elsewhere' [ "$(awk '{print $6}' "$room/listed" | grep -vE \
    '^\./(usr/(bin/(irpx?)?|lib/(irp/.*)?|share/((irp|doc/irp|man|bash-completion|zsh)/.*|doc/)?)?)?$')" = '' ]
dpkg-deb -x "$package" "$room/root"
dpkg-deb -e "$package" "$room/control"
meets 'the sums are right' sh -c "cd '$room/root' && md5sum -c --quiet '$room/control/md5sums'"
meets 'each link leads somewhere' [ "$(find "$room/root" -xtype l)" = '' ]
meets 'no folder of this machine is named' [ "$(grep -rlF -e "$(dirname "$PWD")" "$room/root")" = '' ]

# What it does, from a tree that stays as it is.
state() {
    (cd "$room/root" && find . -printf '%p %m %s %T@ %C@\n' | sort | sha256sum)
}
mkdir "$room/home"
chmod -R a-w "$room/root"
before=$(state)
tally env -i PATH="$room/root/usr/bin:/usr/bin:/bin" HOME="$room/home" bash ./parts/installed.bash "$room/root/usr/share" "$commit" some
meets 'nothing was written beside it' [ "$(state)" = "$before" ]

# The action is YAML, and its last step is bash.
if python3 -c 'import yaml' 2>/dev/null; then
    python3 -c 'import sys, yaml; print(yaml.safe_load(sys.stdin)["runs"]["steps"][-1]["run"])' <../action.yml >"$room/step"
    meets "the action's step calls irp" grep -q 'irp drive' "$room/step"
    meets "the action's step is bash" bash -n "$room/step"
fi

# In a root of its own.
chroot_parts() {
    local base=${1:-$room/base}
    [ -e "$base/bin/bash" ] || debootstrap --variant=minbase --include=gcc,libc6-dev,binutils,python3,man-db bookworm \
        "$base" >"$room/made" 2>&1 || { tail -n 5 "$room/made"; return 1; }
    rm -rf "$base/tmp/tried" && mkdir -p "$base/tmp/tried/home"
    cp "$package" "$base/tmp/tried/irp.deb"
    cp parts/installed.bash "$base/tmp/tried"
    meets 'dpkg -i' chroot "$base" dpkg -i /tmp/tried/irp.deb
    chown -R 65534:65534 "$base/tmp/tried/home"
    mountpoint -q "$base/proc" || { mount -t proc proc "$base/proc" && mounted=$base/proc; }
    tally chroot --userspec=65534:65534 "$base" env -i PATH=/usr/bin:/bin HOME=/tmp/tried/home LC_ALL=C.UTF-8 \
        bash /tmp/tried/installed.bash /usr/share "$commit" all
    meets 'man irp finds the page' grep -q 'irp WORD' <(chroot "$base" env -i PATH=/usr/bin:/bin LC_ALL=C.UTF-8 man irp)
    meets 'dpkg -P' chroot "$base" dpkg -P irp
    meets 'nothing is left' [ "$(find "$base/usr" -name 'irp*')" = '' ]
}
if [ "${1:-}" = --chroot ]; then
    if [ "$(id -u)" -ne 0 ] || ! command -v debootstrap >/dev/null; then
        echo 'skipped: the part in a root of its own: that wants root and debootstrap'
    else
        meets 'a root of Debian' true
        chroot_parts "${2:-}" || failed=$((failed + 1))
    fi
fi
echo "$passed passed, $failed failed"
[ "$failed" -eq 0 ]
