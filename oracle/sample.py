# builds the sample upload and, by the written rules alone, what certify must print
lines=[b"C;215;dry;25",b"A;1;4520;4480",b"A;2;3110;3095",b"E;2",
b"C;150;dry;20",b"A;1;4210;4190",b"E;1",
b"C;149;dry;20",b"C;300;dry;45",b"C;301;dry;45",b"C;198;wet;30",b"C;198;dry;19",
b"A;1;4520;4480\r",b"C;231;dry;33\r",
b"C;2\xc0\x805;dry;25",           # an overlong form
b"C;215;dr\xe2\x82;25",           # a sequence that is cut off
b"C;215;\xed\xa0\x80;25",         # a surrogate
b"\xff\xfeC;215;dry;25",          # a byte order mark of another encoding
b"C;;215;dry;25",b"C;215;;dry;25",b"C;215;dry",b"C;215",b"C",b"C;215;dry;25;",b"C;215;dry;25;7",
b"C; 215;dry;25",b"  C;215 ; dry;  25  ",b"C;2 15;dry;25",b"C;215;dry ;25",b"C;215;dry;25 ",b" C;215;dry;25",
b"C;0215;dry;25",b"C;+215;dry;25",b"C;-50;dry;25",b"C;21.5;dry;25",b"C;215;Dry;25",b"C;215;dry;1440",
"C;215;séchée;25".encode(),b"",b"T;2026-11-17;bench 4",b"E;6",b"A;1;4388;4402",b"C;276;dry;999",b"E;1"]
up=b"\n".join(lines)+b"\n"
open("upload.txt","wb").write(up)
def num(s):
    if 1<=len(s)<=3 and all(c in "0123456789" for c in s) and (s[0]!="0" or len(s)==1): return int(s)
out=[];cnt=dict(c=0,r=0,a=0,e=0,u=0,d=0)
def q(s): return '"'+s+'"'
for i,l in enumerate(lines,1):
    if l.endswith(b"\r"): l=l[:-1]
    try: t=l.decode("utf-8")
    except UnicodeDecodeError:
        out.append(f"line {i}: damaged: fault 5, layer column, row {i-1}: not well-formed UTF-8"); cnt['d']+=1; continue
    f=[x.strip(" ") for x in t.split(";")]
    g=lambda k: f[k] if k<len(f) else ""
    if f[0]=="C":
        s=f"line {i}: temperature {q(g(1))}, surface {q(g(2))}, warm-up {q(g(3))}: "
        n=num(g(1)); w=num(g(3))
        if len(f)!=4: why="not a letter and three fields"
        elif n is None or not 150<=n<=300: why="temperature is not a number from 150 to 300 tenths of a degree"
        elif g(2)!="dry": why="surface is not dry"
        elif w is None or w<20: why="warm-up is not a number of at least 20 minutes"
        else: why=None
        if why: out.append(s+"no certificate, "+why); cnt['r']+=1
        else: out.append(s+"certificate"); cnt['c']+=1
    elif f[0]=="A": out.append(f"line {i}: axle line"); cnt['a']+=1
    elif f[0]=="E": out.append(f"line {i}: end line"); cnt['e']+=1
    else: out.append(f"line {i}: unknown line {q(t)}"); cnt['u']+=1
out.append(f"{len(lines)} lines: {cnt['c']} certified, {cnt['r']} refused, {cnt['a']} axle, {cnt['e']} end, {cnt['u']} unknown, {cnt['d']} damaged")
open("expected","w").write("\n".join(out)+"\n")
