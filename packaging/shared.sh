# What the tools of this folder share. Each begins with it, after setting `root`.

unset MAKEFLAGS MFLAGS GNUMAKEFLAGS MAKEFILES MAKELEVEL
umask 022
LC_ALL=C
export LC_ALL

version=$(cat -- "$root/VERSION")

# `commit` and its `time` in seconds: of the repository, or as `git archive` has written them into packaging/commit.
read -r commit time <"$root/packaging/commit"
case $commit in
    ?Format*) read -r commit time <<END
$(git -C "$root" log -1 --format='%H %ct')
END
        ;;
esac

# The programs and the library that are installed, if no others are named.
: "${PROGRAMS=$root/crates/synthesis/out/synthesis $root/crates/draw/out/draw $root/crates/timeline/out/timeline}"
: "${LIBRARY=$root/bindings/out/libsynthesis.a}"
