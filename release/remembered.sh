# shellcheck shell=sh
# Functions of the scripts neqysbar and release/is_of_sources: that the release was built from the sources
# that are here is remembered, since to hash all of them takes most of a second.
#
# A stamp has a hash in its first line and behind it names, from the top of the repository on, each ended by
# a byte 0; the first is its own. The hash is that of a line for each other name, with its mode, its size
# and the time at which it was last changed, as they were while the sources had the right hash. It is
# compared, and the names are looked at, and nothing of it is run. A stamp counts if it is a file of the
# user's own that no other may write.
#
# So a change is noticed if it gives a file another name, size or time. The time is the one that the
# system itself notes at each change, and that no program can set. Looked at are the code and the
# definitions of each crate that the program stands on, their folders, crates.txt, and the release with
# its hash. Proofs aren't: nothing of them is in the program. A change of a proof is found when all is
# hashed anew, as release/check does it.

# the hash of nothing: a stamp that names nothing but itself doesn't count
NOTHING=e3b0c44298fc1c149afbf4c8996fb92427ae41e4649b934ca495991b7852b855

# more than the names take, so that one process looks at all of them
ROOM=1000000

# looks_of FOLDER: of the files in the folder whose names stand on standard input the first one's mode and
# name, and the hash of how the others are; the second way is for a find that reads no names
looks_of() {
    {
        cd -P -- "$1" || exit
        # times have a point in any language
        export LC_ALL=C
        # shellcheck disable=SC2185
        find -files0-from - -maxdepth 0 -printf '%m %s %C@ %p\n' ||
            exec xargs -r -0 -s "$ROOM" stat --printf '%a %s %.Z %n\n' --
    } 2>/dev/null | {
        read -r mode _ _ name && printf '%s %s ' "$mode" "$name"
        exec sha256sum
    }
}

# holds FOLDER STAMP: whether the stamp, whose name begins with / or is one in the folder, is of what the
# folder has now
holds() {
    case $2 in /*) stamp=$2 ;; *) stamp=$1/$2 ;; esac
    [ -f "$stamp" ] && [ ! -L "$stamp" ] && [ -O "$stamp" ] || return
    {
        read -r kept && found=$(looks_of "$1")
    } 2>/dev/null <"$stamp" || return
    case $found in
        *"$NOTHING"*) return 1 ;;
        [0-7][0145][0145]" $2 $kept  -") ;;
        *) return 1 ;;
    esac
}

# users_stamp FOLDER: the stamp for this folder's sources in the user's cache folder, which has to be
# the user's own; nothing if there is none
users_stamp() {
    cache=${XDG_CACHE_HOME-}
    case $cache in /*) ;; *) cache=${HOME-}/.cache ;; esac
    if [ -e "$cache" ]; then
        [ -O "$cache" ] || return
    else
        [ -O "${cache%/*}" ] || return
    fi
    printf '%s/neqysbar%s/stamp' "$cache" "$(cd -P -- "$1" && pwd -P)"
}

# is_remembered FOLDER: whether it is remembered that the release is of the sources that are in the folder,
# whose path begins with / or ./
is_remembered() {
    [ -x "$1/release/neqysbar" ] || return
    holds "$1" release/stamp && return
    users=$(users_stamp "$1")
    [ -n "$users" ] && holds "$1" "$users"
}
