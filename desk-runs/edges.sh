# Both sides of each limit. A good request and a good issuer name with a book that restricts no name give `verdict 0`; over a limit its
# refusal is told. Each answer is worked out from the requirements' limits and their table of refusals.

# Request: a label has 1 to 63 octets.
begin 'a label of 63'
labels 63 3 > request.bin
expect 'verdict 0'

begin 'a label of 64'
labels 64 3 > request.bin
expect 'refused 2 at 0'

begin 'a label of 64 in the third name'
{ labels 63; labels 3 3; labels 64 3; } > request.bin
expect 'refused 2 at 2'

# A name has at most 255 octets with its zero: labels of 63, 63, 63 and 61 take 64 + 64 + 64 + 62 + 1 = 255.
begin 'a name of 255'
labels 63 63 63 61 > request.bin
expect 'verdict 0'

begin 'a name of 256'
labels 63 63 63 62 > request.bin
expect 'refused 2 at 0'

# The star is a label of one octet and counts: 2 + 64 + 64 + 64 + 60 + 1 = 255.
begin 'a star name of 255'
{ name '*' | head -c 2; labels 63 63 63 59; } > request.bin
expect 'verdict 0'

begin 'a star name of 256'
{ name '*' | head -c 2; labels 63 63 63 60; } > request.bin
expect 'refused 2 at 0'

# "nor is `*` with only the root after it"
begin 'a star alone'
name '*' > request.bin
expect 'refused 2 at 0'

begin 'a star before one label'
name '*.com' > request.bin
expect 'verdict 0'

begin 'the root for a name'
octets 0 > request.bin
expect 'refused 2 at 0'

# At most 250 names; what remains after 250 good ones is refusal 3, a bad name among them refusal 2.
begin '250 names'
repeated 250 labels 1 > request.bin
expect 'verdict 0'

begin '251 names'
repeated 251 labels 1 > request.bin
expect 'refused 3 at 250'

begin 'an octet after 250 names'
{ repeated 250 labels 1; octets 64; } > request.bin
expect 'refused 3 at 250'

begin 'a bad 250th name'
{ repeated 249 labels 1; octets 64; } > request.bin
expect 'refused 2 at 249'

# the limit before was 100
begin '100 names'
repeated 100 labels 1 > request.bin
expect 'verdict 0'

begin '101 names'
repeated 101 labels 1 > request.bin
expect 'verdict 0'

# At most 16,384 octets: 64 names of 255 take 16,320; a name of 64 is a label of 62, and one of 65 a label of 63.
begin 'a request of 16,384'
{ repeated 64 labels 63 63 63 61; labels 62; } > request.bin
expect 'verdict 0'

begin 'a request of 16,385'
{ repeated 64 labels 63 63 63 61; labels 63; } > request.bin
expect 'refused 1 at 0'

# refusal 1 comes before 2 and 3
begin 'a request of 16,385 zeros'
head -c 16385 /dev/zero > request.bin
expect 'refused 1 at 0'

begin 'a request of 16,384 zeros'
head -c 16384 /dev/zero > request.bin
expect 'refused 2 at 0'

begin '251 names in 16,566 octets'
repeated 251 labels 62 1 > request.bin
expect 'refused 1 at 0'

# the limit before was 8,192: 32 names of 255, and one of 32 or 33
begin 'a request of 8,192'
{ repeated 32 labels 63 63 63 61; labels 30; } > request.bin
expect 'verdict 0'

begin 'a request of 8,193'
{ repeated 32 labels 63 63 63 61; labels 31; } > request.bin
expect 'verdict 0'

begin 'a request of 100,000'
head -c 100000 /dev/zero > request.bin
expect 'refused 1 at 0'

# Issuer name: 1 to 253 octets, labels of 1 to 63. 63 + 1 + 63 + 1 + 63 + 1 + 61 = 253.
begin 'an issuer name of 1'
letters 1 > issuer.txt
expect 'verdict 0'

begin 'an issuer name of 253'
{ repeated 3 printf '%s.' "$(letters 63)"; letters 61; } > issuer.txt
expect 'verdict 0'

begin 'an issuer name of 254'
{ repeated 3 printf '%s.' "$(letters 63)"; letters 62; } > issuer.txt
expect 'refused 4 at 0'

begin 'an issuer name of 100,000'
letters 100000 > issuer.txt
expect 'refused 4 at 0'

begin 'an issuer name with a label of 63'
{ letters 63; printf .net; } > issuer.txt
expect 'verdict 0'

begin 'an issuer name with a label of 64'
{ letters 64; printf .net; } > issuer.txt
expect 'refused 4 at 0'

begin 'an issuer name with a closing dot'
printf ca1.example.net. > issuer.txt
expect 'refused 4 at 0'

# Account and method: 1 to 255 octets, each 33 to 126 but no semicolon; the method has no comma.
for file in account.txt method.txt; do
    begin "$file of 1"
    letters 1 > $file
    expect 'verdict 0'

    begin "$file of 255"
    letters 255 > $file
    expect 'verdict 0'

    begin "$file of 256"
    letters 256 > $file
    expect 'refused 15 at 0'

    begin "$file of 100,000"
    letters 100000 > $file
    expect 'refused 15 at 0'

    for octet in 33 58 60 126; do
        begin "$file with the octet $octet"
        octets $octet > $file
        expect 'verdict 0'
    done
    for octet in 0 9 10 13 32 59 127 128 255; do
        begin "$file with the octet $octet"
        octets 97 $octet 97 > $file
        expect 'refused 15 at 0'
    done
done

begin 'an account with a comma'
printf a,b > account.txt
expect 'verdict 0'

begin 'a method with a comma'
printf a,b > method.txt
expect 'refused 15 at 0'

# Book: at most 1,024 records; what remains after 1,024 good ones is refusal 7, a bad one among them refusal 6.
begin '1,024 records'
repeated 1024 other > book.bin
expect 'verdict 0'

begin '1,025 records'
repeated 1025 other > book.bin
expect 'refused 7 at 1024'

begin 'an octet after 1,024 records'
{ repeated 1024 other; octets 64; } > book.bin
expect 'refused 7 at 1024'

begin 'a bad 1,024th record'
{ repeated 1023 other; octets 64; } > book.bin
expect 'refused 6 at 1023'

# records are numbered over the whole book, CAA or not
begin 'the 250th name and the 1,024th record'
{ repeated 249 labels 1; name www.example.com; } > request.bin
{ repeated 1023 other; caa example.com 0 issue ca2.example.org; } > book.bin
expect 'verdict 21 name 249 record 1023 up 1'

# the limit before was 256
begin '256 records'
repeated 256 other > book.bin
expect 'verdict 0'

begin '257 records'
{ repeated 256 other; caa example.com 0 issue ca2.example.org; } > book.bin
expect 'verdict 21 name 0 record 256 up 1'

# At most 49,152 octets: a root owner and the fields take 11, and the data the rest.
begin 'a book of 49,152'
{ octets 0; fields 16 49141; letters 49141; } > book.bin
expect 'verdict 0'

begin 'a book of 49,153'
{ octets 0; fields 16 49142; letters 49142; } > book.bin
expect 'refused 5 at 0'

# refusal 5 comes before 6 and 7
begin 'a book of 49,153 bad octets'
head -c 49153 /dev/zero | tr '\0' '\377' > book.bin
expect 'refused 5 at 0'

begin 'a book of 49,152 bad octets'
head -c 49152 /dev/zero | tr '\0' '\377' > book.bin
expect 'refused 6 at 0'

# 1,024 records of 48 octets fill both limits; one more is over both
begin '1,024 records in 49,152 octets'
repeated 1024 caa x 0 issue ca01.authorities.example.net > book.bin
expect 'verdict 0'

begin '1,025 records in 49,200 octets'
repeated 1025 caa x 0 issue ca01.authorities.example.net > book.bin
expect 'refused 5 at 0'

# the limit before was 32,768
begin 'a book of 32,768'
{ octets 0; fields 16 32757; letters 32757; } > book.bin
expect 'verdict 0'

begin 'a book of 32,769'
{ octets 0; fields 16 32758; letters 32758; } > book.bin
expect 'verdict 0'

begin 'a book of 100,000'
head -c 100000 /dev/zero > book.bin
expect 'refused 5 at 0'

# An owner has at most 255 octets, labels of at most 63, and may be the root.
begin 'an owner of 255'
{ labels 63 63 63 61; fields 1 0; } > book.bin
expect 'verdict 0'

begin 'an owner of 256'
{ labels 63 63 63 62; fields 1 0; } > book.bin
expect 'refused 6 at 0'

begin 'an owner with a label of 63'
{ other; labels 63 3; fields 1 0; } > book.bin
expect 'verdict 0'

begin 'an owner with a label of 64'
{ other; labels 64 3; fields 1 0; } > book.bin
expect 'refused 6 at 1'

# the longest name is found under the longest owner
begin 'a name and an owner of 255'
labels 63 63 63 61 > request.bin
{ labels 63 63 63 61; fields 257 7; octets 0 5; printf issue; } > book.bin
expect 'verdict 21 name 0 record 0 up 0'

# CAA data has at least 2 octets, a tag of at least one, and the tag within it. A tag that fills it leaves an empty value, which
# governs and grants nobody.
begin 'CAA data of 1'
{ name example.com; fields 257 1; octets 0; } > book.bin
expect 'refused 6 at 0'

begin 'a tag of 0'
{ name example.com; fields 257 2; octets 0 0; } > book.bin
expect 'refused 6 at 0'

begin 'a tag that fills the data'
{ name example.com; fields 257 7; octets 0 5; printf issue; } > book.bin
expect 'verdict 21 name 0 record 0 up 1'

begin 'a tag past the data'
{ name example.com; fields 257 7; octets 0 6; printf issue; } > book.bin
expect 'refused 6 at 0'

# A tag is letters and digits.
begin 'a tag octet that is no letter or digit'
{ caa elsewhere.example 0 T0z x; caa elsewhere.example 0 tb_s x; } > book.bin
expect 'refused 6 at 1'

begin 'a hyphen in a tag, critical'
caa example.com 128 a-b x > book.bin
expect 'refused 6 at 0'

# The critical flag is the bit worth 128.
begin 'an unknown tag with flags 128'
caa example.com 128 tbs Unknown > book.bin
expect 'verdict 20 name 0 record 0 up 1'

begin 'an unknown tag with flags 127'
caa example.com 127 tbs Unknown > book.bin
expect 'verdict 0'
