# Functions that make a Debian package of csvtable, for tools/package.sh, which reads this file.

# Prints the control file of a package: debian_control FOLDER VERSION. FOLDER has the package's files in usr/.
debian_control() {
  libc=$(objdump -T "$1/usr/libexec/csvtable" | grep -o 'GLIBC_[0-9.]*' | sort -uV | tail -n 1)
  size=$(cd "$1" && find usr -printf '%y %s\n' | awk '{ size += $1 == "f" ? int(($2 + 1023) / 1024) : 1 } END { print size }')
  cat <<END
Package: csvtable
Version: $2
Architecture: amd64
Maintainer: $maintainer
Installed-Size: $size
Depends: libc6 (>= ${libc#GLIBC_})
Section: utils
Priority: optional
Description: draws the records of a CSV file as a table
 It finds the character that separates fields, right-aligns numbers, and keeps
 within the width of a terminal that has room. It is proved that it draws by
 written rules, and that no file can send a terminal anything but text and
 colours.
END
}

# Puts the files of csvtable into an empty folder, at the places that they have in Debian: put_debian FOLDER VERSION. It adds their
# checksums and the control file.
put_debian() {
  root=$1 prefix=$1/usr
  maintainer='The authors of comfy_table <authors@comfy-table.invalid>'
  put_csvtable > /dev/null
  strip -R .comment -R .note "$prefix/libexec/csvtable"
  gzip -9n "$prefix/share/man/man1/csvtable.1"
  mv "$prefix/share/zsh/site-functions" "$prefix/share/zsh/vendor-completions"
  put 644 LICENSE share/doc/csvtable copyright > /dev/null
  gzip -9n > "$prefix/share/doc/csvtable/changelog.gz" <<END
csvtable ($2) unstable; urgency=medium

  * Release $2.

 -- $maintainer  $(LC_ALL=C date -uRd "@$SOURCE_DATE_EPOCH")
END
  mkdir "$root/DEBIAN"
  debian_control "$root" "$2" > "$root/DEBIAN/control"
  (cd "$root" && find usr -type f | LC_ALL=C sort | xargs md5sum > DEBIAN/md5sums)
  chmod -R u=rwX,go=rX "$root"
  find "$root" -exec touch -d "@$SOURCE_DATE_EPOCH" {} +
}

# Writes the package from the folder that put_debian filled to a file: write_debian FOLDER FILE. dpkg-deb does this if it is
# installed. Otherwise tar and ar do it.
write_debian() {
  if command -v "${DPKG_DEB-dpkg-deb}" > /dev/null; then
    "${DPKG_DEB-dpkg-deb}" --root-owner-group -Zxz --build "$1" "$2" > /dev/null
    return
  fi
  mkdir "$work/parts"
  echo 2.0 > "$work/parts/debian-binary"
  packed "$1/DEBIAN" . | xz > "$work/parts/control.tar.xz"
  packed "$1" . --exclude=./DEBIAN | xz > "$work/parts/data.tar.xz"
  (cd "$work/parts" && ar -rcD "$2" debian-binary control.tar.xz data.tar.xz)
}
