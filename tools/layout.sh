# The folder that is installed from, by tools/install here and from a tarball of tools/dist elsewhere: headers, both libraries,
# spop.pc, and `install` itself. For scripts that set `top`, the repository's folder, to source.

spop_version() { sed -n 's/^Version: //p' "$top/tools/spop.pc"; }

lay_out_headers() { # FOLDER
    mkdir -p "$1/include" "$1/lib/pkgconfig"
    cp "$top"/include/*.h "$1/include/"
    cp "$top/tools/spop.pc" "$1/lib/pkgconfig/spop.pc"
    cp "$top/tools/put" "$1/install"
    chmod 755 "$1/install"
}

# The shared library has its whole version for a name. Programs look for the one of its soname, and the linker for the one without.
lay_out_libraries() { # FROM FOLDER
    local version
    version=$(spop_version)
    cp "$1/libspop.a" "$2/lib/libspop.a"
    cp -L "$1/libspop.so" "$2/lib/libspop.so.$version"
    ln -s "libspop.so.$version" "$2/lib/libspop.so.${version%%.*}"
    ln -s "libspop.so.${version%%.*}" "$2/lib/libspop.so"
}
