Which program `./registryd` takes, what it tells of it, and when it builds one: over a small checkout with a kit of scripts.

  $ . "$TESTDIR/fake_tree.sh"
  $ registryd --version
  registryd 0.*, commit unknown (glob)
  The program is not built yet: its first use compiles it, which takes minutes.

The first start compiles it, and the next ones do not.

  $ registryd serve "a b"
  registryd: it is compiled first, which takes *; it is not proved on this machine until ./test has passed (glob)
  registryd: compiled in [0-9]+ s (re)
  checked
  registryd serve a b
  low serve a b
  $ for _ in 1 2 3; do registryd serve; done | sort | uniq -c
        3 checked
        3 low serve
        3 registryd serve
  $ state
  The program is compiled from these sources, with checks as it runs. It is not proved on this machine: ./test does that.

A proof does not go into it, and neither does another crate.

  $ echo another | tee crates/low/proofs/Lib.antt > crates/other/src/lib.rt
  $ state
  The program is compiled from these sources, with checks as it runs. It is not proved on this machine: ./test does that.
  $ for file in crates/low/src/lib.rt crates/low/src/more.rt crates.txt; do changed $file | cut -c -31; done
  The sources have changed since 
  The program is compiled from th
  The sources have changed since 
  The program is compiled from th
  The sources have changed since 
  The program is compiled from th
  $ rm crates/low/src/lib.rt
  $ state
  The sources have changed since the program was built: its next use compiles it anew, which takes minutes.
  $ compilations; left
  1

Sources that changed are compiled; also where an older file took the place of one, which only its folder tells, and where the time of
one was set back.

  $ echo 'echo low $*' > crates/low/src/lib.rt
  $ registryd > /dev/null
  $ echo 'echo lower $*' > crates/low/src/lib.rt
  $ registryd
  registryd: its sources have changed, so it is compiled first, * (glob)
  registryd: compiled in [0-9]+ s (re)
  checked
  registryd
  lower
  $ echo 'echo low $*' > crates/low/older
  $ touch -d @1 crates/low/older
  $ mv crates/low/older crates/low/src/lib.rt
  $ registryd 2>&1 | grep -v compiled
  checked
  registryd
  low
  $ echo 'echo lower $*' > crates/low/src/lib.rt
  $ touch -d @1 crates/low/src/lib.rt
  $ registryd 2>&1 | grep -v compiled
  checked
  registryd
  lower

One whose bytes, note or rights are not its own is none, also for a start that has been noted.

  $ for change in 'echo another > registryd' 'rm registryd.json' 'echo {} > registryd.json' 'chmod 644 registryd' 'rm registryd'; do
  >   registryd > /dev/null 2>&1
  >   (cd out/compiled && eval "$change")
  >   state
  >   registryd 2>&1 | head -n 1 | cut -c -33
  > done
  The program is not built yet: its first use compiles it, which takes minutes.
  registryd: it is compiled first, 
  The program is not built yet: its first use compiles it, which takes minutes.
  registryd: it is compiled first, 
  The program is not built yet: its first use compiles it, which takes minutes.
  registryd: it is compiled first, 
  The program is not built yet: its first use compiles it, which takes minutes.
  registryd: it is compiled first, 
  The program is not built yet: its first use compiles it, which takes minutes.
  registryd: it is compiled first, 

A proved one is taken from then on, for just these sources.

  $ make_tree
  $ mkdir crates/registryd/out
  $ registryd 2> /dev/null
  checked
  registryd
  low
  $ build --proved > /dev/null 2>&1
  $ registryd a
  proved a
  $ registryd b
  proved b
  $ make_tree
  $ build --proved > /dev/null 2>&1
  $ state
  The program is proved: just these sources were proved before it was built.
  $ for file in crates/low/proofs/Lib.antt crates/low/specs/Lib.antt crates/registryd/src/main.rt HANDLES; do changed $file | cut -c -31; done
  The sources have changed since 
  The program is proved: just the
  The sources have changed since 
  The program is proved: just the
  The sources have changed since 
  The program is proved: just the
  The sources have changed since 
  The program is proved: just the
  $ echo another > crates/other/src/lib.rt
  $ state
  The program is proved: just these sources were proved before it was built.

One without checks has a path of its own, and is never run.

  $ make_tree
  $ build --unchecked
  registryd: it is compiled first, * (glob)
  registryd: compiled in [0-9]+ s, without checks as it runs (re)
  */it's a $top/out/unchecked/registryd (glob)
  $ "$(build --unchecked)" a
  registryd a
  low a
  $ state
  The program is not built yet: its first use compiles it, which takes minutes.
  $ registryd a
  registryd: it is compiled first, * (glob)
  registryd: compiled in [0-9]+ s (re)
  checked
  registryd a
  low a
  $ state
  The program is compiled from these sources, with checks as it runs. It is not proved on this machine: ./test does that.
  $ registryd a
  checked
  registryd a
  low a

It is begun by links, and in another folder.

  $ ln -s "$top/registryd" "$kit/link"
  $ ln -s link "$kit/second"
  $ (cd "$kit" && ./second a && sh link a && ./second --version | tail -n 1) < /dev/null
  checked
  registryd a
  low a
  checked
  registryd a
  low a
  The program is compiled from these sources, with checks as it runs. It is not proved on this machine: ./test does that.
  $ compilations
  2

The commit is that of the checkout, and not of a folder that it lies in, nor of the git that the environment names.

  $ export GIT_AUTHOR_NAME=a GIT_AUTHOR_EMAIL=a@b GIT_COMMITTER_NAME=a GIT_COMMITTER_EMAIL=a@b
  $ told() { GIT_DIR=/ registryd --version | sed -n "s/$(git rev-parse --short HEAD 2> /dev/null || echo none)/HEAD/; s/.*, commit //p"; }
  $ git -C .. init -q && git -C .. commit -q --allow-empty -m another
  $ told
  unknown
  $ git init -q
  $ told
  unknown
  $ git add crates crates.txt HANDLES VERSION && git commit -q -m first
  $ told
  HEAD
  $ echo 'no source' > README.md
  $ told
  HEAD
  $ echo more > crates/low/src/more.rt
  $ told
  HEAD+changes

glibc is asked for huge pages, unless the user has set that; what compiles the program has nothing of it.

  $ make_tree
  $ echo 'printf "%s\n" "${GLIBC_TUNABLES-none}"' > crates/registryd/src/main.rt
  $ make_kit '' 'echo "${GLIBC_TUNABLES-none}" >> "${0%/toolchain/*}/told"'
  $ registryd 2> /dev/null | sed -n 2p
  glibc.malloc.hugetlb=1
  $ uniq "$kit/told"
  none
  $ for given in '' glibc.malloc.hugetlb=0 glibc.malloc.hugetlb= glibc.malloc.arena_max=2:glibc.malloc.hugetlb=0 \
  >     glibc.malloc.hugetlb=0:glibc.malloc.arena_max=2 glibc.malloc.arena_max=2 glibc.malloc.hugetlb my.glibc.malloc.hugetlb=0 \
  >     "a=b  *:c=\$d'\"\\:"; do
  >   GLIBC_TUNABLES=$given registryd | sed -n 2p
  > done
  glibc.malloc.hugetlb=1
  glibc.malloc.hugetlb=0
  glibc.malloc.hugetlb=
  glibc.malloc.arena_max=2:glibc.malloc.hugetlb=0
  glibc.malloc.hugetlb=0:glibc.malloc.arena_max=2
  glibc.malloc.hugetlb=1:glibc.malloc.arena_max=2
  glibc.malloc.hugetlb=1:glibc.malloc.hugetlb
  glibc.malloc.hugetlb=1:my.glibc.malloc.hugetlb=0
  glibc.malloc.hugetlb=1:a=b  *:c=$d'"\:
