# Labels taken off: how many, on verdicts 20, 21 and 22, to reach the name that decided. Each number is counted by hand.

# deep N TEXT: a name of N labels of one letter before those of the text
deep() { repeated "$1" label 1; name "$2"; }

# "0 at X itself", and one more for each label: the set stands at example.com
for labels_off in 0 1 2 3 9 10 11 99 100 101; do
    begin "$labels_off labels below the set"
    deep $labels_off example.com > request.bin
    { other; other; caa example.com 0 issue ca2.example.org; caa com 0 issue ca1.example.net; } > book.bin
    expect "verdict 21 name 0 record 2 up $labels_off"
done

# a name has at most 127 labels: 126 of one letter, and the top label
begin '126 labels below the set'
deep 126 c > request.bin
caa c 128 tbs Unknown > book.bin
expect 'verdict 20 name 0 record 0 up 126'

# "labels taken off X": the star of *.X is none of them
begin 'a star above the set'
name '*.example.com' > request.bin
{ other; caa example.com 0 issue ca2.example.org; } > book.bin
expect 'verdict 21 name 0 record 1 up 0'

begin 'a star, and a label below the set'
name '*.www.example.com' > request.bin
{ other; other; caa example.com 0 issuewild ca2.example.org; } > book.bin
expect 'verdict 21 name 0 record 2 up 1'

begin 'a star, and as many labels as there can be: 125, and the top label'
{ name '*' | head -c 2; deep 125 c; } > request.bin
caa c 0 issue ca2.example.org > book.bin
expect 'verdict 21 name 0 record 0 up 125'

# "(where aliases were followed, to reach the name they start from)", whatever the target's labels are
begin 'an alias at X, to a name of one label'
name a.b.www.example.com > request.bin
{ other; cname a.b.www.example.com t; caa t 0 issue ca2.example.org; } > book.bin
expect 'verdict 21 name 0 record 2 up 0'

begin 'an alias two labels up, to a name of five labels'
name a.b.www.example.com > request.bin
{ cname www.example.com a.b.c.example.org; caa a.b.c.example.org 128 tbs Unknown; } > book.bin
expect 'verdict 20 name 0 record 1 up 2'

begin 'an alias at X without records at its target, and a set two labels up'
{ cname www.example.com t; other; caa com 0 issue ca2.example.org; } > book.bin
expect 'verdict 21 name 0 record 2 up 2'

# 22: the name whose look has a ninth alias
begin 'an alias of itself two labels up'
{ cname www.example.com t; cname com com; } > book.bin
expect 'verdict 22 name 0 record 1 up 2'

# the labels of the name that is told, not of the others
begin 'a granted name three labels below its set, before a name one below its own'
{ name a.b.c.example.com; name www.example.org; } > request.bin
{ caa example.com 0 issue ca1.example.net; other; caa example.org 0 issue ca2.example.org; } > book.bin
expect 'verdict 21 name 1 record 2 up 1'
printf %s ca2.example.org > issuer.txt
expect 'verdict 21 name 0 record 0 up 3'

# "Every verdict 20, 21 or 22": no other line has the number
begin 'a granted name three labels below its set'
name a.b.c.example.com > request.bin
caa example.com 0 issue ca1.example.net > book.bin
expect 'verdict 0'
