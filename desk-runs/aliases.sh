# Aliases: CNAME records, which are of type 5 and class 1. Each answer is worked out from the request's sentences.

# "Each look at a name follows its alias": www has none of its own, and its target's record grants or doesn't.
begin 'an alias of a name that grants'
{ cname www.example.com web.example.org; caa web.example.org 0 issue ca1.example.net; } > book.bin
expect 'verdict 0'
printf %s ca2.example.org > issuer.txt
expect 'verdict 21 name 0 record 1 up 0'

begin 'an alias, letter case ignored'
{ cname WWW.example.com wEb.example.org; caa WEB.example.ORG 0 issue ca2.example.org; } > book.bin
expect 'verdict 21 name 0 record 1 up 0'

begin 'an alias of the name above'
{ cname example.com example.org; caa example.org 128 tbs Unknown; } > book.bin
expect 'verdict 20 name 0 record 1 up 1'

begin 'an alias for a star name'
name '*.www.example.com' > request.bin
{ cname www.example.com web.example.org; caa web.example.org 0 issuewild ';'; } > book.bin
expect 'verdict 21 name 0 record 1 up 0'

# "the final target's CAA records are the set, whatever name it is"
begin 'an alias of the root'
{ cname www.example.com ''; caa '' 0 issue ca2.example.org; } > book.bin
expect 'verdict 21 name 0 record 1 up 0'

begin 'the root without an alias'
caa '' 0 issue ca2.example.org > book.bin
expect 'verdict 0'

# "If it has none, the climb goes on from the parent of the name looked at"
begin 'a target without records below one that restricts'
{ cname www.example.com web.example.org; caa example.org 0 issue ca2.example.org; } > book.bin
expect 'verdict 0'
caa example.com 0 issue ca3.example.com >> book.bin
expect 'verdict 21 name 0 record 2 up 1'

# "up to 8 for that look", "If a ninth alias would be followed": record 0 is another, record 1 the first alias
begin 'eight aliases'
{ other; chain 8; caa t8 0 issue ca2.example.org; } > book.bin
expect 'verdict 21 name 0 record 9 up 0'

begin 'eight aliases, granted'
{ other; chain 8; caa t8 0 issue ca1.example.net; } > book.bin
expect 'verdict 0'

begin 'nine aliases'
{ other; chain 9; caa t9 0 issue ca1.example.net; caa example.com 0 issue ca1.example.net; } > book.bin
expect 'verdict 22 name 0 record 1 up 0'

begin 'an alias of itself'
{ caa example.com 0 issue ca1.example.net; cname www.example.com WWW.example.com; } > book.bin
expect 'verdict 22 name 0 record 1 up 0'

begin 'two aliases of each other'
{ cname web.example.com www.example.com; cname www.example.com web.example.com; } > book.bin
expect 'verdict 22 name 0 record 1 up 0'

# the alias of the name looked at is told, which stands above the requested one
begin 'nine aliases from the name above'
name a.www.example.com > request.bin
{ cname a.www.example.com b; other; chain 9; } > book.bin
expect 'verdict 22 name 0 record 2 up 1'

# the name that isn't permitted and has the lowest number decides, whichever verdict it has
begin '22 of the second name'
{ name pay.example.com; name www.example.com; } > request.bin
{ caa pay.example.com 0 issue ca1.example.net; cname www.example.com www.example.com; } > book.bin
expect 'verdict 22 name 1 record 1 up 0'

begin '21 of the first name, and 22 of the second'
{ name pay.example.com; name www.example.com; } > request.bin
{ caa pay.example.com 0 issue ca2.example.org; cname www.example.com www.example.com; } > book.bin
expect 'verdict 21 name 0 record 0 up 0'

# "data is one name by 01's owner rule, filling its length exactly (else refusal 6)": a name of 255 octets is 64 + 64 + 64 + 62 + 1
begin 'a target of 255'
{ name a; fields 5 255; labels 63 63 63 61; } > book.bin
expect 'verdict 0'

begin 'a target of 256'
{ other; name a; fields 5 256; labels 63 63 63 62; } > book.bin
expect 'refused 6 at 1'

begin 'a target with a label of 64'
{ name a; fields 5 66; labels 64; } > book.bin
expect 'refused 6 at 0'

begin 'an octet after the target'
{ name a; fields 5 4; name b; octets 0; } > book.bin
expect 'refused 6 at 0'

begin 'a target that is cut off'
{ name a; fields 5 2; octets 1 98; } > book.bin
expect 'refused 6 at 0'

begin 'no target'
{ name a; fields 5 0; } > book.bin
expect 'refused 6 at 0'

begin 'a compressed target'
{ name a; fields 5 2; octets 192 0; } > book.bin
expect 'refused 6 at 0'

# only type 5 of class 1 counts
begin 'type 5 of class 3'
{ name www.example.com; two 5; two 3; two 0; two 0; two 2; octets 192 0; caa www.example.com 0 issue ca2.example.org; } > book.bin
expect 'verdict 21 name 0 record 1 up 0'

begin 'a DNAME record'
{ name www.example.com; fields 39 1; octets 0; caa www.example.com 0 issue ca2.example.org; } > book.bin
expect 'verdict 21 name 0 record 1 up 0'

# "An owner with an alias and a CAA record, or two aliases, is refusal 12 with the later record's number, the lowest such"
begin 'an alias and a CAA record'
{ cname a b; other; caa A 0 issue ca1.example.net; } > book.bin
expect 'refused 12 at 2'

begin 'a CAA record and an alias'
{ caa a 0 issue ca1.example.net; caa a 0 issue ca1.example.net; cname a b; } > book.bin
expect 'refused 12 at 2'

begin 'two aliases'
{ cname a b; cname b c; cname a c; } > book.bin
expect 'refused 12 at 2'

begin 'the same alias twice'
{ cname a b; cname a b; } > book.bin
expect 'refused 12 at 1'

begin 'an alias and a CAA record of the root'
{ cname '' b; caa '' 0 issue ca1.example.net; } > book.bin
expect 'refused 12 at 1'

begin 'two conflicts'
{ cname a b; caa c 0 issue x; cname c d; cname a b; } > book.bin
expect 'refused 12 at 2'

begin 'an alias beside other records, and CAA records beside each other'
{ cname a b; name a; fields 1 0; caa b 0 issue x; caa b 0 issue x; caa aa 0 issue x; cname c b; } > book.bin
expect 'verdict 0'

# "found after 6 and 7"
begin 'a conflict in a book that breaks off'
{ cname a b; cname a b; octets 0 1; } > book.bin
expect 'refused 6 at 2'

begin 'a conflict in 1,024 records'
{ cname a b; repeated 1022 other; cname a b; } > book.bin
expect 'refused 12 at 1023'

begin 'a conflict in 1,025 records'
{ cname a b; repeated 1022 other; cname a b; other; } > book.bin
expect 'refused 7 at 1024'

begin 'a conflict in a book of 49,153'
{ cname a b; cname a b; octets 0; fields 16 49110; letters 49110; } > book.bin
expect 'refused 5 at 0'

begin 'a conflict in a book of 49,152'
{ cname a b; cname a b; octets 0; fields 16 49109; letters 49109; } > book.bin
expect 'refused 12 at 1'

# the account and the method are checked before the book
begin 'a conflict and no account'
{ cname a b; cname a b; } > book.bin
rm account.txt
expect 'refused 15 at 0'
