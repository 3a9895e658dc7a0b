Files and programs that `registryd-etcd` can't use are told in a line.

  $ . "$TESTDIR/etcd.sh"
  $ front found
  $ typed() { python3 -S "$top" registry_etcd "$@" --program "$REGISTRY_PROGRAM"; }
  $ echo text > text; mkdir folder
  $ for words in "serve --cacert gone" "serve --cert gone" "found --load gone" "found --load text" \
  >   "found --load folder" "found --journal gone" "serve --save folder" "serve --save gone/a" "serve --cacert text"; do
  >   typed $words < /dev/null || [ $? = 1 ] || echo "status $?"
  > done
  registryd-etcd: gone: No such file or directory
  registryd-etcd: gone: No such file or directory
  registryd-etcd: gone can't be read: No such file or directory
  registryd-etcd: this is no journal's file
  registryd-etcd: folder can't be read: Is a directory
  registryd-etcd: gone is not there
  registryd-etcd: folder can't be written: Is a directory
  registryd-etcd: gone/a can't be written: No such file or directory
  registryd-etcd: text: ?* (glob)

Streams that are closed.

  $ typed serve <&-
  registryd-etcd: its standard input and output have to be open
  [1]
  $ typed serve < /dev/null >&-
  registryd-etcd: its standard input and output have to be open
  [1]
  $ typed serve --load gone < /dev/null 2>&-
  [1]

A file that can't be saved is told before lines are answered.

  $ a1 | front serve --save /proc/no
  registryd-etcd: /proc/no can't be written: * (glob)
  [1]
  $ front journal
  registry-journal 1
  end 0

A program that is none.

  $ printf '#!/bin/sh\nwhile read -r line; do echo $line; done\n' > other; chmod +x text other
  $ for path in /no/such $PWD/folder $PWD/text $PWD/other /bin/false; do
  >   front serve --program $path < /dev/null || [ $? = 1 ] || echo "status $?"
  > done
  registryd-etcd: /no/such: No such file or directory
  registryd-etcd: */folder: Permission denied (glob)
  registryd-etcd: */text: Exec format error (glob)
  registryd-etcd: */other answers as registryd does not (glob)
  registryd-etcd: the program does not begin with the journal: it ended with status 1

A replica whose program does this in so many lives, after which it is registryd: it answers the line that asks nothing.

  $ begin_poor() {
  >   rm -f lives
  >   cat > poor << end
  > #!/bin/sh
  > printf x >> $PWD/lives
  > if [ \$(wc -c < $PWD/lives) -le $1 ]; then
  >   while read -r line; do
  >     case \$line in '{}') echo '{"error":19,"name":"BadLine","revision":0}' ;; *) $2 ;; esac
  >   done
  >   exit
  > fi
  > exec $REGISTRY_PROGRAM "\$@"
  > end
  >   chmod +x poor
  > }
  $ no_memory="echo '{\"error\":18,\"name\":\"NoMemory\",\"revision\":0}'"

One that has no memory for an entry is made anew: no place is answered with 18, since no other replica would answer so.

  $ begin_poor 1 "$no_memory"
  $ (a1; b1) | front serve --program $PWD/poor
  {"ok":true,"place":1,"revision":1,"seat":1}
  {"ok":true,"place":2,"revision":2,"seat":1}
  $ cat lives
  xx (no-eol)

One that never has it: the entry stands, and another front answers by it.

  $ front found --prefix never
  $ begin_poor 99 "$no_memory"
  $ a1 | front serve --program $PWD/poor --prefix never
  registryd-etcd: the replica has ended, or has no memory
  [1]
  $ list | front serve --prefix never
  {"packages":[["a",[["1.0.0",false]]]],"place":1,"revision":1,"seat":1}

One that ends at a request is asked once more.

  $ front found --prefix ends
  $ begin_poor 1 exit
  $ (list; list) | front serve --program $PWD/poor --prefix ends
  {"packages":[],"place":0,"revision":0,"seat":1}
  {"packages":[],"place":0,"revision":0,"seat":1}
  $ cat lives
  xx (no-eol)
  $ begin_poor 99 exit
  $ list | front serve --program $PWD/poor --prefix ends
  registryd-etcd: the replica has ended
  [1]

A reader that is gone is nothing to tell.

  $ front found --prefix gone
  $ for number in $(seq 1500); do publish a $number.0.0; done | front serve --prefix gone > told
  $ front journal --prefix gone | head -n 1
  registry-journal 1
