# shellcheck shell=bash
# LIBMETSUWAN_DIR, where it names no folder of the library, or is not set: that is what is said.
builds() { # [FOLDER]
    (cd "$run/rust/source" && unset RUSTFLAGS RUSTC_WRAPPER LIBMETSUWAN_DIR DOCS_RS && export CARGO_HOME=$run/rust/home &&
        if (($#)); then export LIBMETSUWAN_DIR=$1; fi && CARGO_TARGET_DIR=$work/target cargo check --offline \
            --config 'source.crates-io.replace-with="debian"' \
            --config "source.debian.directory=\"$crates\"" >"$said" 2>&1)
}
cp "$built/libmetsuwan.a" "$run/rust/source"
for folder in . "$work"; do
    ! builds "$folder"
    verdict "the crate is not built with $folder"
    says 'it is said what is wrong' 'LIBMETSUWAN_DIR has to be the absolute path .*libmetsuwan\.a is no such file'
done
rm "$run/rust/source/libmetsuwan.a"
# A library of another version, whose calls have other arguments.
mkdir other
for version in 1 12; do
    sed "s/2\.\([0-9]*, not proved\)/$version.\1/" "$built/libmetsuwan.a" >other/libmetsuwan.a
    ! builds "$work/other"
    verdict "the crate is not built with a library of version $version"
    says 'which is said' 'other/libmetsuwan\.a is not of version 2\.x'
done
builds "$built"
verdict 'it is, with the folder of the library'
if compgen -G '/usr/local/lib/libmetsuwan.a' >"$said" || compgen -G '/usr/lib*/libmetsuwan.a' >"$said"; then
    echo 'skipped rust: the library is installed here, and found with no LIBMETSUWAN_DIR'
else
    ! builds
    verdict 'it is not, where nothing says where the library is'
    says 'which is said in a sentence' 'there is no libmetsuwan\.a: clients/build\.sh FOLDER makes it, and LIBMETSUWAN_DIR '
fi
