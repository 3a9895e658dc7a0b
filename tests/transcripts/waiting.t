Sessions that wait for a journal: thirty at once, one that says for whom it waits, and who waits no longer than it may.

  $ holder() { sed -E "s/process $1,/process HOLDER,/; s/ --journal r[^\"]*\"/ ..\"/"; }
  $ for number in {0..29}; do registry publish p$number 1.0.0 --wait 60 > shown-$number 2> /dev/null & done; wait
  $ sed '1d; $d; s/.*"name":"\([^"]*\)".*/\1/' registry.journal | awk '{ print "published " $1 " 1.0.0 (revision " NR ")" }' | sort > wanted
  $ cat shown-* | sort | cmp - wanted
  $ wc -l < wanted
  30

It says for whom it waits, and goes on once that has ended.

  $ rm registry.journal
  $ mkfifo lines
  $ registry shell < lines > shell.out &
  $ shell=$!
  $ exec 9> lines
  $ echo publish a 1.0.0 >&9
  $ until [ -s shell.out ]; do sleep 0.05; done
  $ registry publish b 1.0.0 --wait 60 > b.out 2> b.told 9>&- &
  $ waits=$!
  $ until [ -s b.told ]; do sleep 0.05; done
  $ holder $shell < b.told
  registry: registry.journal is in use by another session (process HOLDER, "registry shell"): waiting up to 60 seconds
  $ exec 9>&-
  $ wait $shell $waits
  $ cat shell.out b.out
  published a 1.0.0 (revision 1)
  published b 1.0.0 (revision 2)

Who writes waits no longer than it may, and who reads not at all.

  $ registryd serve --workers 1 --journal registry.journal < lines > replies &
  $ holder=$!
  $ exec 9> lines
  $ echo '{"op":"list"}' >&9
  $ until [ -s replies ]; do sleep 0.05; done
  $ printf 'Package: librust-b-dev\nVersion: 1.0.0-1\nProvides: librust-b-1.0.0-dev\n\n' > packages
  $ for words in "publish c 1.0.0" "yank a 1.0.0" "unyank a 1.0.0" "import debian packages"; do registry $words --wait 0; echo $?; done 2>&1 | holder $holder | sort | uniq -c
        4 3
        4 registry: registry.journal is in use by another session (process HOLDER, "registryd serve --workers 1 .."): try again once that has ended
  $ printf 'list\nlist --wait 0\n' | registry shell --wait 0 > /dev/null 2> told
  [2]
  $ head -n 1 told | holder $holder
  registry: registry.journal is in use by another session (process HOLDER, "registryd serve --workers 1 .."): try again once that has ended
  $ registry publish c 1.0.0 --wait 2 2>&1 | holder $holder
  registry: registry.journal is in use by another session (process HOLDER, "registryd serve --workers 1 .."): waiting up to 2 seconds
  registry: registry.journal is in use by another session (process HOLDER, "registryd serve --workers 1 .."): try again once that has ended
  $ for words in list "show a" "resolve a" "journal verify registry.journal"; do registry $words > /dev/null; done
  $ exec 9>&-
  $ wait $holder
  $ tail -n 1 registry.journal
  end 2

A service is not waited for.

  $ registry serve --socket s > served 2> /dev/null &
  $ service=$!
  $ until [ -s served ]; do sleep 0.05; done
  $ registry publish c 1.0.0 --wait 86400 2>&1 | holder $service
  registry: registry.journal is kept by a service (process HOLDER, "registry serve --socket s"): name that by --connect
  $ kill $service
  $ wait $service || true
