#!/usr/bin/env bash
# Makes the stored outputs anew: bash tools/captured/make.sh
# It needs python3, openssl and the Debian packages bind9, bind9-dnsutils, bind9-host, bind9-utils, ldnsutils and knot-dnsutils.
# All traffic stays on 127.0.0.1. The tests read the stored outputs, and don't run this.
set -euo pipefail
cd "$(dirname "$0")"
here=$PWD

work=$(mktemp -d)
pids=()
stop() {
    kill "${pids[@]}" 2>/dev/null || true
    wait 2>/dev/null || true
    rm -rf "$work"
}
trap stop EXIT

# Ports: a server that is authoritative, a resolver that asks it, a server that answers wrongly, nobody, and a resolver that wants
# a cookie of its own from clients that send cookies, the latter also by TLS and HTTPS.
authority=53530 resolver=53531 bad=53532 nobody=53533 cookies=53534 tls=53535 https=53536

# ---- Zones

zone() { # NAME < records
    {
        echo "\$ORIGIN $1."
        echo "\$TTL 3600"
        echo "@ SOA ns.example.net. hostmaster.example.net. 1 7200 3600 1209600 3600"
        echo "@ NS ns.example.net."
        cat
    } > "$work/$1.zone"
}
zone com < /dev/null
zone org < /dev/null
zone example < /dev/null
zone example.com <<'records'
@ CAA 0 issue "ca1.example.net; account=230123"
@ CAA 0 issuewild ";"
@ CAA 128 tbs "Unknown"
@ A 192.0.2.1
www A 192.0.2.2
pay CAA 0 issue "ca2.example.org"
alias CNAME target.example.org.
alias-of-none CNAME none.example.org.
branch DNAME branch.example.org.
sub NS ns.sub
ns.sub A 192.0.2.3
long CAA 0 issue "ca1.example.net"
long CAA 0 issue "ca2.example.org; policy=ev; text=\"a\\b\""
records
for n in $(seq 100 139); do
    echo "large CAA 0 issue \"ca$n.example.net; account=$n$n$n$n$n$n\""
done >> "$work/example.com.zone"
zone example.org <<'records'
target CAA 0 issue "ca2.example.org"
none A 192.0.2.4
www.branch CAA 0 issue "ca2.example.org"
records
zone signed.example <<'records'
@ CAA 0 issue "ca1.example.net"
alias CNAME signed.example.
records
# No zone: named can't load it, and answers SERVFAIL.
echo "this is no zone" > "$work/broken.example.zone"

(
    cd "$work"
    dnssec-keygen -q -a ECDSAP256SHA256 -f KSK signed.example > /dev/null
    dnssec-keygen -q -a ECDSAP256SHA256 signed.example > /dev/null
    cat Ksigned.example.*.key >> signed.example.zone
    openssl req -x509 -newkey rsa:2048 -nodes -keyout key.pem -out cert.pem -days 30 -subj /CN=resolver.example 2> /dev/null
    dnssec-signzone -q -o signed.example -f signed.example.zone signed.example.zone > /dev/null
)

server() { # NAME PORT < more of the configuration
    {
        echo "options { directory \"$work\"; listen-on port $2 { 127.0.0.1; }; listen-on-v6 { none; }; pid-file none;"
        echo "  dnssec-validation no; empty-zones-enable no; notify no;"
        cat
        echo "controls { };"
    } > "$work/$1.conf"
    named -g -c "$work/$1.conf" > "$work/$1.log" 2>&1 &
    pids+=($!)
}
{
    echo "  recursion no; };"
    for name in com org example example.com example.org signed.example broken.example; do
        echo "zone $name { type primary; file \"$name.zone\"; };"
    done
} | server authority $authority
echo "  recursion yes; forward only; forwarders { 127.0.0.1 port $authority; }; };" | server resolver $resolver
echo "  recursion yes; forward only; forwarders { 127.0.0.1 port $authority; }; require-server-cookie yes;
  listen-on port $tls tls own { 127.0.0.1; }; listen-on port $https tls own http default { 127.0.0.1; }; };
  tls own { key-file \"key.pem\"; cert-file \"cert.pem\"; };" | server cookies $cookies
python3 bad-server.py $bad &
pids+=($!)
for port in $authority $resolver $cookies; do
    for try in $(seq 50); do
        dig @127.0.0.1 -p $port +time=1 +tries=1 com SOA > /dev/null && break
        sleep 0.2
    done
done

# ---- Outputs, with standard output and standard error as a terminal shows them

keep() { # FILE COMMAND...
    local file=$1
    shift
    "$@" > "$here/$file.txt" 2>&1 || true
}

rm -f "$here"/*.txt
asks() { # NAME of the outputs, PORT, and the name that is looked up, by each program; .answer is the short form of dig
    local name=$1 port=$2
    shift 2
    keep "dig-$name" dig @127.0.0.1 -p "$port" +time=1 +tries=1 "$@" CAA
    keep "dig-$name.answer" dig @127.0.0.1 -p "$port" +time=1 +tries=1 +noall +comments +answer "$@" CAA
    keep "drill-$name" drill -p "$port" "$@" @127.0.0.1 CAA
    keep "kdig-$name" kdig @127.0.0.1 -p "$port" +timeout=1 +retry=0 "$@" CAA
}

# Good answers
asks found $authority example.com
asks found-by-resolver $resolver example.com
asks found-two $authority long.example.com
asks pay $resolver pay.example.com
asks no-caa $authority www.example.com
asks no-caa-by-resolver $resolver www.example.com
asks com $resolver com
asks nxdomain $authority no-such.example.com
asks nxdomain-by-resolver $resolver no-such.example.com
keep dig-signed dig @127.0.0.1 -p $authority +dnssec signed.example CAA
keep drill-signed drill -D -p $authority signed.example @127.0.0.1 CAA
keep kdig-signed kdig @127.0.0.1 -p $authority +dnssec signed.example CAA
keep dig-signed-nxdomain dig @127.0.0.1 -p $authority +dnssec no-such.signed.example CAA
keep drill-signed-nxdomain drill -D -p $authority no-such.signed.example @127.0.0.1 CAA
keep kdig-signed-nxdomain kdig @127.0.0.1 -p $authority +dnssec no-such.signed.example CAA
keep dig-bad-cookie dig @127.0.0.1 -p $cookies example.com CAA
keep kdig-bad-cookie kdig @127.0.0.1 -p $cookies +cookie +badcookie example.com CAA
keep dig-by-tcp dig @127.0.0.1 -p $resolver +tcp example.com CAA
keep kdig-by-tcp kdig @127.0.0.1 -p $resolver +tcp example.com CAA
keep dig-by-tls dig @127.0.0.1 -p $tls +tls example.com CAA
# The handshake of kdig with BIND fails at times.
for try in $(seq 20); do
    keep kdig-by-tls kdig @127.0.0.1 -p $tls +tls example.com CAA
    grep -q HEADER "$here/kdig-by-tls.txt" && break
done
for try in $(seq 20); do
    keep kdig-by-https kdig @127.0.0.1 -p $https +https example.com CAA
    grep -q HEADER "$here/kdig-by-https.txt" && break
done
keep kdig-cookie kdig @127.0.0.1 -p $resolver +cookie +nsid +padding=64 example.com CAA
keep dig-two-names dig @127.0.0.1 -p $resolver www.example.com CAA example.com CAA
keep dig-by-tcp-after-truncated dig @127.0.0.1 -p $authority large.example.com CAA
keep kdig-by-tcp-after-truncated kdig @127.0.0.1 -p $authority large.example.com CAA
keep dig-question dig @127.0.0.1 -p $resolver +noall +comments +question +answer example.com CAA
keep dig-unknownformat dig @127.0.0.1 -p $resolver +unknownformat example.com CAA
keep dig-noall-answer dig @127.0.0.1 -p $resolver +noall +answer example.com CAA
keep drill-by-tcp drill -t -p $authority large.example.com @127.0.0.1 CAA

# Aliases
asks alias $authority alias.example.com
asks alias-by-resolver $resolver alias.example.com
asks alias-of-none $resolver alias-of-none.example.com
asks dname $resolver www.branch.example.com
keep dig-alias-unknownformat dig @127.0.0.1 -p $resolver +unknownformat www.branch.example.com CAA
keep dig-alias-signed dig @127.0.0.1 -p $authority +dnssec alias.signed.example CAA

# Failed lookups
asks servfail $authority broken.example
asks servfail-by-resolver $resolver www.broken.example
asks refused $authority www.example.net
asks formerr $bad rcode-1.example.com
asks notimp $bad rcode-4.example.com
asks notauth $bad rcode-9.example.com
asks unknown-rcode $bad rcode-11.example.com
keep dig-badvers dig @127.0.0.1 -p $authority +edns=100 +noednsneg example.com CAA
keep kdig-badvers kdig @127.0.0.1 -p $authority +edns=100 example.com CAA
asks nobody $nobody example.com
asks silent $bad silent.example.com
asks tcp-refused $bad tcp-refused.example.com
keep dig-by-tcp-refused dig @127.0.0.1 -p $bad +tcp +time=1 +tries=1 example.com CAA
keep kdig-by-tcp-refused kdig @127.0.0.1 -p $bad +tcp +timeout=1 +retry=0 example.com CAA
keep drill-by-tcp-refused drill -t -p $bad example.com @127.0.0.1 CAA
keep kdig-tls-refused kdig @127.0.0.1 -p $nobody +tls +timeout=1 +retry=0 example.com CAA
keep dig-truncated dig @127.0.0.1 -p $authority +ignore large.example.com CAA
keep dig-truncated.answer dig @127.0.0.1 -p $authority +ignore +noall +comments +answer large.example.com CAA
keep drill-truncated drill -p $authority large.example.com @127.0.0.1 CAA
keep kdig-truncated kdig @127.0.0.1 -p $authority +ignore large.example.com CAA
keep dig-second-try dig @127.0.0.1 -p $bad +time=1 +tries=2 second-try.example.com CAA
for name in malformed malformed-empty extra too-short other-id no-qr other-question bad-caa filtered; do
    asks $name $bad $name.example.com
done
keep dig-malformed-nobesteffort dig @127.0.0.1 -p $bad +nobesteffort +time=1 +tries=1 malformed.example.com CAA
# The label is too long, so nobody is asked for the server's address.
keep dig-no-such-server dig "@$(printf 'x%.0s' $(seq 70)).invalid" example.com CAA
asks referral $authority www.sub.example.com

# Other forms that a person may paste
keep dig-plus-short dig @127.0.0.1 -p $resolver +short example.com CAA
keep dig-plus-short-alias dig @127.0.0.1 -p $resolver +short alias.example.com CAA
keep kdig-plus-short kdig @127.0.0.1 -p $resolver +short example.com CAA
keep drill-quiet drill -Q -p $resolver example.com @127.0.0.1 CAA
keep dig-query-shown dig @127.0.0.1 -p $resolver +qr example.com CAA
keep kdig-query-shown kdig @127.0.0.1 -p $resolver +qr example.com CAA
keep dig-other-type dig @127.0.0.1 -p $resolver www.example.com MX
keep dig-multiline dig @127.0.0.1 -p $resolver +multiline www.example.com CAA
keep dig-nocomments dig @127.0.0.1 -p $resolver +nocomments example.com CAA
keep dig-yaml dig @127.0.0.1 -p $resolver +yaml example.com CAA
keep kdig-json kdig @127.0.0.1 -p $resolver +json example.com CAA
keep kdig-noheader kdig @127.0.0.1 -p $resolver +noheader example.com CAA
keep kdig-noall-header kdig @127.0.0.1 -p $resolver +noall +header +answer example.com CAA
keep host host -t CAA -p $resolver example.com 127.0.0.1
keep nslookup nslookup -type=CAA -port=$resolver example.com 127.0.0.1
keep dig-norecurse dig @127.0.0.1 -p $resolver +norecurse other.example.com CAA

echo "$(ls "$here"/*.txt | wc -l) outputs"
