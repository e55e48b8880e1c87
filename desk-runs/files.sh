# The five files: missing ones, ones that can't be read, and the lines that the requirements print.
# "A file that can't be opened is taken as empty, but without book.bin the line is `no book`, whatever the others hold."

# the whole case as the requirements tell it; the stored copies are the same octets
begin 'the whole case'
{ name www.example.com; name pay.example.com; } > request.bin
{
    caa example.com 0 issue CA1.example.net
    caa example.com 0 issue 'ca2.example.org; account=230123'
    caa example.com 0 issue ca1.example.net
    caa pay.example.com 0 issue ca2.example.org
} > book.bin
for file in request.bin issuer.txt book.bin; do
    cmp $file "$whole/$file"
    cmp $file "$here/../crates/desk/data/$file"
done
for file in account.txt method.txt; do
    cmp $file "$whole/$file"
done
expect 'verdict 21 name 1 record 3 up 0'

# records 0 and 1 govern nothing that is asked for; record 2 is critical and its tag unknown
begin 'an unknown critical record'
{ caa example.org 0 issue 'ca1.example.net'; other; caa example.com 128 tbs Unknown; } > book.bin
expect 'verdict 20 name 0 record 2 up 1'

# four good records, then one that ends inside its type
begin 'a book that breaks off in record 4'
{ repeated 4 other; octets 0 1; } > book.bin
expect 'refused 6 at 4'

begin 'an empty book'
expect 'verdict 0'

begin 'no book'
rm book.bin
expect 'no book'

begin 'no book beside a bad request'
octets 64 > request.bin
rm book.bin
expect 'no book'

begin 'no book beside a bad issuer name'
printf %s '-' > issuer.txt
rm book.bin
expect 'no book'

begin 'no book beside an account and a method with a line end'
echo >> account.txt
echo >> method.txt
rm book.bin
expect 'no book'

begin 'no book, no account and no method'
rm account.txt method.txt book.bin
expect 'no book'

begin 'no file at all'
rm request.bin issuer.txt account.txt method.txt book.bin
expect 'no book'

# an empty request is refusal 2 at 0, and comes before the issuer name and the book
begin 'no request'
rm request.bin
expect 'refused 2 at 0'

begin 'an empty request'
: > request.bin
expect 'refused 2 at 0'

begin 'no request and no issuer name'
rm request.bin issuer.txt
expect 'refused 2 at 0'

# an empty issuer name has no octet, and 1 to 253 are asked
begin 'no issuer name'
rm issuer.txt
expect 'refused 4 at 0'

begin 'an issuer name with a line end'
printf 'ca1.example.net\n' > issuer.txt
expect 'refused 4 at 0'

# an empty account or method has no octet, and 1 to 255 are asked; the issuer name comes before, the book after
begin 'no account'
rm account.txt
expect 'refused 15 at 0'

begin 'no method'
rm method.txt
expect 'refused 15 at 0'

begin 'an empty account'
: > account.txt
expect 'refused 15 at 0'

begin 'an empty method'
: > method.txt
expect 'refused 15 at 0'

begin 'an account with a line end'
echo >> account.txt
expect 'refused 15 at 0'

begin 'a method with a line end'
echo >> method.txt
expect 'refused 15 at 0'

begin 'no request and no account'
rm request.bin account.txt
expect 'refused 2 at 0'

begin 'no issuer name, no account and no method'
rm issuer.txt account.txt method.txt
expect 'refused 4 at 0'

begin 'no account beside a bad book'
rm account.txt
octets 0 > book.bin
expect 'refused 15 at 0'

begin 'no method beside a book that is too long'
rm method.txt
head -c 49153 /dev/zero > book.bin
expect 'refused 15 at 0'

# each file goes to its own place: the account limits the account, and the method the method
begin 'a record for this account and this method'
caa example.com 0 issue 'ca1.example.net; accounturi=https://ca1.example.net/acct/230123; validationmethods=http-01,dns-01' > book.bin
expect 'verdict 0'
printf %s https://ca1.example.net/acct/230124 > account.txt
expect 'verdict 21 name 0 record 0 up 1'

begin 'a record for another method'
caa example.com 0 issue 'ca1.example.net; validationmethods=http-01,dns-02' > book.bin
expect 'verdict 21 name 0 record 0 up 1'
printf %s http-01 > method.txt
expect 'verdict 0'

# A directory opens and can't be read: never a short file. A book is then none, and any other file is empty.
begin 'a directory for a request'
rm request.bin
mkdir request.bin
expect 'refused 2 at 0'

begin 'a directory for an issuer name'
rm issuer.txt
mkdir issuer.txt
expect 'refused 4 at 0'

begin 'a directory for an account'
rm account.txt
mkdir account.txt
expect 'refused 15 at 0'

begin 'a directory for a method'
rm method.txt
mkdir method.txt
expect 'refused 15 at 0'

begin 'a directory for a book'
rm book.bin
mkdir book.bin
expect 'no book'

begin 'a book that is a link to nothing'
rm book.bin
ln -s nowhere book.bin
expect 'no book'

# a pipe hands its octets over in pieces; the file is all of them
begin 'a book that comes in pieces'
cp "$whole/request.bin" .
rm book.bin
mkfifo book.bin
{
    head -c 70 "$whole/book.bin"
    sleep 0.2
    tail -c +71 "$whole/book.bin"
} > book.bin &
expect 'verdict 21 name 1 record 3 up 0'
kill $! 2> /dev/null || true
