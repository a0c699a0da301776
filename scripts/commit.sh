# shellcheck shell=bash
# scripts/commit.sh, sourced by the scripts that make packages: takes the time and the maintainer of packages,
# SOURCE_DATE_EPOCH and MAINTAINER, from the commit that is checked out, so that packages are reproducible. If the
# environment has both, git is not called.
of_commit() { # FORMAT
    [ -z "$(git rev-parse --show-cdup)" ] && git log -1 --format="$1"
}
if ! SOURCE_DATE_EPOCH=${SOURCE_DATE_EPOCH:-$(of_commit %ct)} || ! MAINTAINER=${MAINTAINER:-$(of_commit '%an <%ae>')} ||
    [ -z "$SOURCE_DATE_EPOCH" ] || [ -z "$MAINTAINER" ]; then
    echo 'git does not tell the commit of this checkout: set SOURCE_DATE_EPOCH (seconds) and MAINTAINER (NAME <ADDRESS>)' >&2
    exit 1
fi
export SOURCE_DATE_EPOCH MAINTAINER
