From nine tenths of a limit on each subcommand of `registry` that asks a journal says so, and not before. `journal` writes one at once, of the lines that it is given.

  $ journal() { cat > lines; (echo registry-journal 2; cat lines; echo end $(wc -l < lines)) > registry.journal; }
  $ versions() { seq -f '{"name":"'$1'","needs":[],"op":"publish","version":"1.%.0f.0"}' 0 $(($2 - 1)); }
  $ many() { for part in $(seq $(($1 / 2000))); do versions p$part 2000; done; versions rest $(($1 % 2000)); }

Nine tenths of 49,152 commands, which are 44,236.8.

  $ many 44236 | journal
  $ registry list > /dev/null
  $ many 44237 | journal
  $ registry list > /dev/null
  registry: registry.journal has 44,237 of 49,152 commands: `registry journal renew` begins a smaller journal

A yank is a command too, and what was learnt is none, and names no package anew.

  $ chain() {
  >   echo '{"name":"a","needs":[["b","^1.0.0"]],"op":"publish","version":"1.0.0"}'
  >   echo '{"name":"b","needs":[["c","^1.0.0"]],"op":"publish","version":"1.0.0"}'
  >   echo '{"name":"c","needs":[],"op":"publish","version":"1.0.0"}'
  >   seq 100 199 | sed 's/.*/{"derivation":[{"causes":[{"fact":"premise","name":"a","need":"^1.0.0","target":"b","versions":[0],"within":[0]},{"fact":"premise","name":"b","need":"^1.0.0","target":"c","versions":[0],"within":[0,&]}],"conclusion":[["a",true,[0]],["c",false,[0,&]]],"pivot":"b"}],"op":"learn"}/'
  > }
  $ (chain; many 44233) | journal
  $ registry list > /dev/null
  $ (chain; many 44233; echo '{"name":"p1","op":"yank","version":"1.0.0"}') | journal
  $ registry list > /dev/null
  registry: registry.journal has 44,237 of 49,152 commands: `registry journal renew` begins a smaller journal

Without its end, as a session has it.

  $ many 44237 | journal
  $ sed -i '$d' registry.journal
  $ registry list > /dev/null
  registry: registry.journal has 44,237 of 49,152 commands: `registry journal renew` begins a smaller journal

Nine tenths of 65,535 names, which are 58,981.5: each publication has one and needs fourteen more.

  $ names() {
  >   seq -f n%.0f $1 | paste -d ' ' - - - - - - - - - - - - - - - | sed -E '
  >     s/ *$//
  >     s/^(\S+) (.*)$/{"name":"\1","needs":[["\2","*"]],"op":"publish","version":"1.0.0"}/
  >     s/^n[0-9]+$/{"name":"&","needs":[],"op":"publish","version":"1.0.0"}/
  >     s/ /","*"],["/g'
  > }
  $ names 58981 | journal
  $ registry list > /dev/null
  $ names 58982 | journal
  $ registry list > /dev/null
  registry: registry.journal names 58,982 of 65,535 packages: `registry journal renew` begins a smaller journal

Nine tenths of 4,096 versions of a package, which are 3,686.4; a yank is of no version more.

  $ versions log 3686 | journal
  $ registry list > /dev/null
  $ (versions log 3686; versions log 3686 | sed 's/"needs":\[\],"op":"publish"/"op":"yank"/') | journal
  $ registry list > /dev/null
  $ versions log 3687 | journal
  $ registry list > /dev/null
  registry: registry.journal has 3,687 of 4,096 versions of log: `registry journal renew` begins a smaller journal

What a publication makes, and what a journal that was renewed has.

  $ versions log 3686 | journal
  $ registry publish log 2.0.0 > /dev/null
  registry: registry.journal has 3,687 of 4,096 versions of log: `registry journal renew` begins a smaller journal
  $ registry journal verify registry.journal > /dev/null
  registry: registry.journal has 3,687 of 4,096 versions of log: `registry journal renew` begins a smaller journal
  $ versions log 3700 | journal
  $ registry journal renew registry.journal new.journal --newest 3690 > /dev/null
  registry: new.journal has 3,690 of 4,096 versions of log: `registry journal renew` begins a smaller journal
  $ rm new.journal
  $ registry journal renew registry.journal new.journal --newest 3 > /dev/null

At the limits of a session a journal is at fault: a command too many, and one that is learnt too many.

  $ many 49153 | journal
  $ registry journal verify registry.journal 2> /dev/null | grep -oE '^[^ ]*:[0-9]+: at fault: |[0-9,]+ commands are before it, which is the limit'
  registry.journal:49154: at fault: 
  49,152 commands are before it, which is the limit
  $ (chain | head -n 3; seq 1 4097 | sed 's/.*/{"derivation":[{"causes":[{"fact":"premise","name":"a","need":"^1.0.0","target":"b","versions":[0],"within":[0]},{"fact":"premise","name":"b","need":"^1.0.0","target":"c","versions":[0],"within":[0,&]}],"conclusion":[["a",true,[0]],["c",false,[0,&]]],"pivot":"b"}],"op":"learn"}/') | journal
  $ registry journal verify registry.journal 2> /dev/null | grep -oE '^[^ ]*:[0-9]+: at fault: |[0-9,]+ are stored before it, which is the limit'
  registry.journal:4101: at fault: 
  4,096 are stored before it, which is the limit
