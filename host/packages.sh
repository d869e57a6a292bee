# shellcheck shell=bash
# Sourced by host/run: Debian's packages, fetched and unpacked below a folder. Nothing is installed, and no right of root
# is needed.

# Package lists and downloads of our own, so that the machine's are left as they are.
write_apt_configuration() {
    local folder=$1
    mkdir -p "$folder/lists/partial" "$folder/archives/partial"
    cat >"$folder/apt.conf" <<END
Dir::State::lists "$folder/lists";
Dir::Cache::archives "$folder/archives";
Dir::Cache::pkgcache "";
Dir::Cache::srcpkgcache "";
APT::Sandbox::User "root";
Acquire::Languages "none";
Acquire::Retries "3";
Debug::NoLocking "true";
END
}

# fetch_packages FOLDER WHAT DOWNLOAD UNPACK: once. The two functions run apt-get with that configuration, and make
# FOLDER/root of what came.
fetch_packages() {
    local folder=$1 what=$2 download=$3 unpack=$4
    [ ! -e "$folder/ready" ] || return 0
    if ! command -v apt-get >/dev/null; then
        echo "host/run: this needs $what, or Debian's apt-get to fetch that" >&2
        return 1
    fi
    echo "host/run: fetching $what (once)" >&2
    rm -rf "$folder"
    write_apt_configuration "$folder"
    if ! (export APT_CONFIG="$folder/apt.conf" && "$download") >"$folder/log" 2>&1; then
        tail -n 5 "$folder/log" >&2
        echo "host/run: the packages could not be fetched: $folder/log" >&2
        return 1
    fi
    "$unpack"
    rm -rf "$folder/archives" "$folder/lists"
    touch "$folder/ready"
}

# unpack_into FOLDER PACKAGE..
unpack_into() {
    local package
    mkdir -p "$1"
    for package in "${@:2}"; do
        dpkg-deb -x "$package" "$1"
    done
}
