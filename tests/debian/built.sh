# A package whose source mercurial-buildpackage builds from a repository. It is asked again where it has lost what a program said to it, as it
# does over libgc.
export DEBEMAIL=a@example.org DEBFULLNAME=a SOURCE_DATE_EPOCH=1700000000 HGUSER=a
mkdir -p words/debian/source && cd words || exit
seq 1 1000 >numbers
echo '3.0 (native)' >debian/source/format
printf 'words (%d.0) unstable; urgency=low\n\n  * The number %d.\n\n -- a <a@example.org>  Tue, 14 Nov 2023 22:13:20 +0000\n\n' 3 3 2 2 1 1 >debian/changelog
printf 'Source: words\nMaintainer: a <a@example.org>\nStandards-Version: 4.6.0\nBuild-Depends: dpkg\n\nPackage: words\nArchitecture: all\nDescription: words\n Words.\n' >debian/control
printf '#!/usr/bin/make -f\nclean build binary binary-arch binary-indep build-arch build-indep:\n\t@true\n' >debian/rules
chmod +x debian/rules
hg init && hg add -q && hg commit -m first -d '1700000000 0'
for _ in $(seq 1 40); do
    ! mercurial-buildpackage -v -S >../said 2>../said-wrong || [ ! -e ../words_3.0.dsc ] || break
done
grep -ah '^mpgc: ' ../said-wrong >&2 || true
tar tf ../words_3.0.tar.* && sed -n '/^Source\|^Version/p' ../words_3.0.dsc
