"""A hostile server: names, texts and lines of standard error that a terminal or a page could act on. Ends early.

It lists nothing, since the probe plays nothing where other names than the tree's are listed; with a second word it
lists such names, too."""
import sys, struct, os
sys.stderr.buffer.write(b"\x1b]0;pwned\x07\x1b[2J\x1b[31mprobe: accepted: 50 sessions, 5000 requests\n"
                        b"<script>alert(1)</script>"
                        b" ]]> \xff\xfe \xed\xa0\x80 \x00\x0b \xe2\x80\xae\xc2\x9b31m\rprobe: accepted\n")
sys.stderr.flush()
def text(d): return struct.pack(">I",len(d))+d
def send(d): os.write(1, struct.pack(">I",len(d))+d)
NAST=b"</script><img src=x onerror=alert(1)>\x1b[2J\n\r\xff\xed\xa0\x80\xe2\x80\xae\xc2\x9b ]]> \x00\" ' & \xef\xbf\xbe"
inp=sys.stdin.buffer
n=0
while True:
    h=inp.read(4)
    if len(h)<4: break
    d=inp.read(struct.unpack(">I",h)[0])
    if d[0]==1:
        send(b"\x02"+struct.pack(">I",3)+text(NAST)+text(NAST)+text(b"posix-rename@openssh.com")+text(b"1"))
        continue
    i=d[1:5]
    if d[0] in (11, 12) and len(sys.argv) < 3:
        send(bytes([101])+i+struct.pack(">I",4)+text(NAST)+text(NAST))
        continue
    n+=1
    k=n%5
    if k==0: send(bytes([101])+i+struct.pack(">I",4)+text(NAST)+text(NAST))
    elif k==1: send(bytes([104])+i+struct.pack(">I",1)+text(NAST)+text(NAST)+struct.pack(">I",0))
    elif k==2: send(bytes([102])+i+text(NAST))
    elif k==3: send(bytes([103])+i+text(NAST))
    else: send(bytes([101])+i+struct.pack(">I",4000000000)+text(NAST)+text(NAST))
    if n > 12:
        os._exit(3)
