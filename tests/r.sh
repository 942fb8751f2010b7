#!/usr/bin/env bash
# The R package: installs it as the README says and runs the README's lines of R, builds and installs it with its vignette as
# docs/LIBRARY.md says, then runs R's own check of the tarball, with its tests, help pages and vignette. Fails on any error or warning. The libraries must be built; what R needs comes from
# Debian's packages, and nothing else is fetched.
set -u
cd "$(dirname "$0")/.."
root=$PWD
needed=(r-base-core r-cran-nnls r-cran-testthat r-cran-knitr r-cran-rmarkdown pandoc)
build=$(mktemp -d)
trap 'rm -rf "$build"' EXIT
export R_REPOSITORIES=NULL R_LIBS=$build/library
unset WALZHIK_LIB WALZHIK_INCLUDE

install_missing() {
    local missing=() name
    for name in "${needed[@]}"; do
        dpkg-query -W -f '${Status}' "$name" 2>/dev/null | grep -q '^install ok installed$' || missing+=("$name")
    done
    [ "${#missing[@]}" -gt 0 ] || return 0
    echo "installing from Debian: ${missing[*]}"
    apt-get update -qq && apt-get install -y -qq --no-install-recommends "${missing[@]}" >/dev/null
}

# Runs a command and shows what it said only where it fails.
quietly() {
    "$@" >"$build/said" 2>&1 && return 0
    printf 'failed: %s\n' "$*"
    tail -n 60 "$build/said"
    return 1
}

# Without archives there is one line that says what to do.
without_archives() {
    (cd r && WALZHIK_LIB=$build ./configure >"$build/said" 2>&1) && { echo 'configure: no archives, but no error'; return 1; }
    [ "$(wc -l <"$build/said")" -eq 1 ] && grep -q '.ci/build walzhik;' "$build/said" && return 0
    echo 'configure does not say what to do in one line:'
    cat "$build/said"
    return 1
}

# A second installation is linked to the archives as they are then, and never stands for others: with empty ones, or with archives
# that hold nothing, it fails.
relinks() {
    local folder=$build/again
    mkdir -p "$folder/target/staticlib" "$build/second"
    cp -r r include "$folder"
    cp target/staticlib/libwalzhik.a target/staticlib/libwalzhik_indices.a "$folder/target/staticlib"
    (cd "$folder" && quietly R CMD INSTALL --no-docs --library="$build/second" r/) || return 1
    local name
    for name in walzhik walzhik_indices; do
        rm "$folder/target/staticlib/lib$name.a"
        ar rc "$folder/target/staticlib/lib$name.a"
        touch -d '2001-01-01' "$folder/target/staticlib/lib$name.a"
    done
    (cd "$folder" && R CMD INSTALL --no-docs --library="$build/second" r/ >"$build/said" 2>&1) || { rm -r "$folder"; return 0; }
    echo 'installed again with empty archives, and no error'
    return 1
}

# As docs/LIBRARY.md says, without WALZHIK_LIB: built and installed from the root, after which the vignette is found.
with_vignette() {
    local folder=$build/vignette
    mkdir "$folder"
    quietly R CMD build r/ || return 1
    mv walzhik_*.tar.gz "$folder"
    quietly R CMD INSTALL --library="$folder" "$folder"/walzhik_*.tar.gz || return 1
    R_LIBS=$folder Rscript -e 'stopifnot(nrow(vignette(package = "walzhik")$results) == 1, nzchar(vignette("walzhik")$PDF))' \
        >"$build/said" 2>&1 && return 0
    echo 'vignette("walzhik") is not found after build and install:'
    cat "$build/said"
    return 1
}

# The README's lines of R: an indented block that starts by loading the package.
readme_lines() {
    sed -n '/^    library(walzhik)$/,/^$/p' README.md | sed -n 's/^    //p'
}

# As the README says: installed from the root, and its lines end with a picture and with indices of all but the absent rings.
as_the_readme_says() {
    mkdir "$build/library" "$build/readme"
    quietly R CMD INSTALL --preclean --clean r/ || return 1
    readme_lines >"$build/readme/lines.R"
    printf '%s\n' 'stopifnot(inherits(indices, "data.frame"), dim(indices) == c(100, 2), sum(is.na(indices)) == 2)' \
        >>"$build/readme/lines.R"
    ln -s "$root/examples" "$build/readme/examples"
    (cd "$build/readme" && quietly Rscript lines.R && [ -s Rplots.pdf ]) || { echo "the README's lines of R draw nothing"; return 1; }
}

tarball_checks() {
    export WALZHIK_LIB=$root/target/staticlib
    cd "$build" || return 1
    quietly R CMD build "$root/r" || return 1
    R CMD check --no-manual walzhik_*.tar.gz >checked 2>&1
    local status=$?
    grep -E -A 12 '\.\.\. (NOTE|WARNING|ERROR)' checked
    grep '^Status: ' checked || return 1
    if [ "$status" -ne 0 ] || grep -qE '^Status: .*(ERROR|WARNING)' checked; then
        find walzhik.Rcheck \( -name '*.fail' -o -name 00install.out \) -exec tail -n 60 {} +
        return 1
    fi
    grep -hE '^\[ FAIL [0-9]+' walzhik.Rcheck/tests/testthat.Rout | tail -n 1
}

# The random series, the files of widths and Python's answers to them, which R's tests read, are those that Python gives now.
in_step() {
    PYTHONPATH=python/src /usr/bin/python3 tests/r_series.py && PYTHONPATH=python/src /usr/bin/python3 tests/r_widths.py
}

install_missing || exit 2
in_step && without_archives && relinks && as_the_readme_says && with_vignette && tarball_checks
