What the tests need from Debian is installed without a question, and one line says what. Stubs stand for dpkg-query, apt-cache and
apt-get: they note their words, and what is installed in files of their names.

  $ . "$TESTDIR/fake_tree.sh"
  $ cat > tools/debian_packages.txt << end
  > # what a machine needs
  > one            one-command
  > two            -
  > three or four  four-command
  > 
  > end
  $ cat > "$kit/bin/stub" << 'end'
  > #!/bin/sh
  > here=${0%/bin/*}
  > echo "${0##*/} $*" >> "$here/called"
  > echo "$DEBIAN_FRONTEND" > "$here/frontend"
  > for word; do last=$word; done
  > case "${0##*/} $*" in
  > dpkg-query*) [ -e "$here/installed-$last" ] && printf installed ;;
  > apt-cache*) [ "$last" != three ] && echo "Package: $last" ;;
  > *" update") [ ! -e "$here/offline" ] || { echo 'Err:1 http://deb.debian.org'; echo 'E: Failed to fetch it'; exit 100; } ;;
  > *" install "*)
  >   for word; do case $word in two|four) : > "$here/installed-$word" ;; esac; done
  >   ln -sf stub "$here/bin/one-command"; ln -sf stub "$here/bin/four-command" ;;
  > esac
  > end
  $ chmod +x "$kit/bin/stub"
  $ for name in dpkg-query apt-cache apt-get; do ln -s stub "$kit/bin/$name"; done
  $ as_user() {
  >   python3 -c "import os, sys; os.geteuid = lambda: $1; from dev import install_packages; sys.exit(install_packages.main([]))"
  > }

Only root installs.

  $ as_user 1000 < /dev/null
  install_packages: the tests lack one, two, three: only root installs them: apt-get install one two three
  [1]
  $ grep apt-get "$kit/called"
  [1]

Debian cannot be reached.

  $ touch "$kit/offline"
  $ as_user 0 < /dev/null
  install_packages: the tests lack one, two, three: E: Failed to fetch it
  [1]
  $ grep -c apt-get "$kit/called"
  1
  $ rm "$kit/offline" "$kit/called"

It tries again once, and waits neither long for a server nor for ever for another run of dpkg.

  $ as_user 0 < /dev/null
  install_packages: installed one, two, four
  $ grep apt-get "$kit/called"
  apt-get -q -o Acquire::Retries=1 -o Acquire::http::Timeout=20 -o DPkg::Lock::Timeout=60 update
  apt-get -q -o Acquire::Retries=1 -o Acquire::http::Timeout=20 -o DPkg::Lock::Timeout=60 install -y --no-install-recommends one two four
  $ grep -m 1 dpkg-query "$kit/called"; grep -m 1 apt-cache "$kit/called"
  dpkg-query -W -f=${db:Status-Status} two
  apt-cache show one
  $ cat "$kit/frontend"
  noninteractive

`.ci/run` installs first, judges types and layout, then runs all tests, of which none may be skipped, and ends as they do.

  $ mkdir "$kit/ci" "$kit/ci/dev"
  $ cp -r "$of/.ci" "$of/.flake8" "$of/__main__.py" "$kit/ci"
  $ cd "$kit/ci"
  $ printf '[tool.mypy]\nstrict = true\nfiles = ["typed.py"]\n' > pyproject.toml
  $ printf 'import sys\nprint("installing", sys.argv[1:], flush=True)\nsys.exit(1)\n' > dev/install_packages.py
  $ printf '#!/bin/sh\necho testing "$@"\nexit "$STATUS"\n' > test
  $ chmod +x test
  $ echo pass > typed.py
  $ (cd / && STATUS=0 "$kit/ci/.ci/run" < /dev/null)
  installing []
  testing --nothing-skipped
  $ (cd / && STATUS=5 "$kit/ci/.ci/run" < /dev/null)
  installing []
  testing --nothing-skipped
  [5]
  $ echo "count: int = 'one'" > typed.py
  $ STATUS=0 .ci/run < /dev/null | grep -oE 'Incompatible types|testing'; echo ${PIPESTATUS[0]}
  Incompatible types
  1
  $ echo "pass  # $(head -c 120 /dev/zero | tr '\0' x)" > typed.py
  $ STATUS=0 .ci/run < /dev/null | grep -oE 'E501|testing'; echo ${PIPESTATUS[0]}
  E501
  1
