"""Prints programs with every opcode, a line each: its bytes, and behind `=` its reply and its number of steps. Each gets one array of 16 numbers of 8 bytes, and
the argument f1 02 83 04 85 06 87 88.

Expected values come from the tables of RFC 9669 on Python's whole numbers; nothing of this repository is used.
"""

import struct
import edges
M64=(1<<64)-1
def slot(op,dst=0,src=0,off=0,imm=0):
    return (bytes([op,src<<4|dst])+struct.pack('<h',off)+struct.pack('<i',imm if imm<1<<31 else imm-(1<<32))).hex()
def lddw(r,v): return [slot(0x18,r,0,0,v&0xffffffff), slot(0,0,0,0,(v>>32)&0xffffffff)]
EXIT=slot(0x95)
def mov(r,i): return [slot(0xb7,r,0,0,i)]
rows=[]; seen=set()
def row(group,prog,reply,steps):
    rows.append((group,' '.join(prog),reply&M64,steps))
    k=0
    while k<len(prog):
        op=int(prog[k][:2],16); seen.add(op); k+=2 if op==0x18 else 1
def s(v,w): v&=(1<<w)-1; return v-(1<<w) if v>>(w-1) else v
def trunc(a,b):
    q=abs(a)//abs(b)
    return q if (a<0)==(b<0) else -q
def alu(code,w,a,b,signed):
    m=(1<<w)-1; a&=m; b&=m
    if code==0: r=a+b
    elif code==1: r=a-b
    elif code==2: r=a*b
    elif code==3: r=(0 if b==0 else (trunc(s(a,w),s(b,w)) if signed else a//b))
    elif code==4: r=a|b
    elif code==5: r=a&b
    elif code==6: r=a<<(b%w)
    elif code==7: r=a>>(b%w)
    elif code==9:
        if b==0: r=a
        elif signed: r=s(a,w)-trunc(s(a,w),s(b,w))*s(b,w)
        else: r=a%b
    elif code==10: r=a^b
    elif code==11: r=b
    elif code==12: r=s(a,w)>>(b%w)
    return r&m
A=0x8123456789abcdef
pairs={0:(A,0x7fffffff),1:(3,5),2:(A,-3),3:(A,10),4:(A,0x0f0f0f0f),5:(A,-256),6:(A,68),7:(A,4),9:(A,1000),10:(A,-1),11:(A,-2),12:(A,36)}
names='ADD SUB MUL DIV OR AND LSH RSH - MOD XOR MOV ARSH'.split()
for w,cls in ((64,7),(32,4)):
    for code in (0,1,2,3,4,5,6,7,9,10,11,12):
        a,b=pairs[code]
        row(f'ALU{w}',lddw(0,a)+[slot(16*code+cls,0,0,0,b)]+[EXIT],alu(code,w,a,b,False),3)
        bb=b&M64
        row(f'ALU{w}',lddw(0,a)+lddw(3,bb)+[slot(16*code+8+cls,0,3)]+[EXIT],alu(code,w,a,bb,False),4)
    least=1<<(w-1)
    # signed, by zero, the least number by -1
    for code in (3,9):
        for a,b in ((-13,3),(13,-3),(least,-1),(7,0),(-7,0)):
            a&=M64
            row(f'ALU{w}',lddw(0,a)+[slot(16*code+cls,0,0,1,b)]+[EXIT],alu(code,w,a,b,True),3)
            row(f'ALU{w}',lddw(0,a)+lddw(3,b&M64)+[slot(16*code+8+cls,0,3,1)]+[EXIT],alu(code,w,a,b,True),4)
        row(f'ALU{w}',lddw(0,7)+lddw(3,0)+[slot(16*code+8+cls,0,3)]+[EXIT],alu(code,w,7,0,False),4)
    # shifts by the width
    for code in (6,7,12):
        row(f'ALU{w}',lddw(0,A)+[slot(16*code+cls,0,0,0,w)]+[EXIT],alu(code,w,A,w,False),3)
    # NEG, MOVSX
    row(f'ALU{w}',lddw(0,A)+[slot(0x80+cls,0)]+[EXIT],(-A)&((1<<w)-1),3)
    for bits in (8,16,32)[:3 if w==64 else 2]:
        for v in (A,0x7f7f7f7f7f7f7f7f):
            row(f'ALU{w}',lddw(3,v)+[slot(0xb8+cls,0,3,bits)]+[EXIT],s(v,bits)&((1<<w)-1),3)
for op,name in ((0xd4,'le'),(0xdc,'be'),(0xd7,'swap')):
    for bits in (16,32,64):
        v=A&((1<<bits)-1)
        r=v if op==0xd4 else int.from_bytes(v.to_bytes(bits//8,'little'),'big')
        row('SWAP',lddw(0,A)+[slot(op,0,0,0,bits)]+[EXIT],r,3)
# memory: the argument is f1 02 83 04 85 06 87 88
ARG=bytes([0xf1,0x02,0x83,0x04,0x85,0x06,0x87,0x88])
for op,n in ((0x61,4),(0x69,2),(0x71,1),(0x79,8)):
    for off in range(0,9-n,max(1,n//2) if n<8 else 1):
        row('MEM',[slot(op,0,1,off),EXIT],int.from_bytes(ARG[off:off+n],'little'),2)
for op,n in ((0x81,4),(0x89,2),(0x91,1)):
    for off in (0,8-n):
        row('MEM',[slot(op,0,1,off),EXIT],int.from_bytes(ARG[off:off+n],'little',signed=True)&M64,2)
for op,n in ((0x62,4),(0x6a,2),(0x72,1),(0x7a,8)):
    want=bytearray(8); want[0:n]=((-2)&M64).to_bytes(8,'little')[:n]
    row('MEM',[slot(0x7a,10,0,-8,0),slot(op,10,0,-8,-2),slot(0x79,0,10,-8),EXIT],int.from_bytes(want,'little'),4)
for op,n in ((0x63,4),(0x6b,2),(0x73,1),(0x7b,8)):
    want=bytearray(8); want[0:n]=A.to_bytes(8,'little')[:n]
    row('MEM',[slot(0x7a,10,0,-8,0)]+lddw(3,A)+[slot(op,10,3,-8),slot(0x79,0,10,-8),EXIT],int.from_bytes(want,'little'),5)
# jumps
row('JMP',mov(0,1)+[slot(0x05,0,0,0)]+mov(0,2)+[EXIT],2,4)
row('JMP',mov(0,1)+[slot(0x06,0,0,0,0)]+mov(0,3)+[EXIT],3,4)
def holds(code,w,a,b):
    m=(1<<w)-1; a&=m; b&=m; x,y=s(a,w),s(b,w)
    return {1:a==b,2:a>b,3:a>=b,4:(a&b)!=0,5:a!=b,6:x>y,7:x>=y,10:a<b,11:a<=b,12:x<y,13:x<=y}[code]
for w,cls in ((64,5),(32,6)):
    for code in (1,2,3,4,5,6,7,10,11,12,13):
        for a,b in ((-1,1),(1,-1),(4,4),(0x100000001,1)):
            a&=M64
            for x in (0,1):
                t=holds(code,w,a,b)
                tail=mov(0,1)
                j=[slot(16*code+cls,3,0,1,b)] if not x else [slot(16*code+8+cls,3,4,1)]
                prog=lddw(3,a)+(lddw(4,b&M64) if x else [])+tail+j+mov(0,0)+[EXIT]
                row(f'JMP{w}',prog,1 if t else 0,(4 if t else 5)+x)
# call and a map: the value of key 0 of a new array, and a key that isn't there
look=lambda key:[slot(0x62,10,0,-4,key),slot(0xbf,2,10),slot(0x07,2,0,0,-4),slot(0x18,1,5,0,0),slot(0),slot(0x85,0,0,0,1),slot(0x55,0,0,2,0)]+mov(0,77)+[EXIT]+[slot(0x79,0,0,0),EXIT]
row('CALL',look(0),0,8)
row('CALL',look(16),77,8)
# the worked programs
P=[("b700000007000000 b701000000000000 3f10000000000000 9500000000000000",0,4),
("b700000007000000 b701000000000000 9f10000000000000 9500000000000000",7,4),
("1800000007000000 0000000001000000 b701000000000000 9c10000000000000 9500000000000000",7,4),
("1800000000000000 0000000000000080 37000100ffffffff 9500000000000000",9223372036854775808,3),
("b7000000f3ffffff 9700010003000000 9500000000000000",18446744073709551615,3),
("b700000003000000 6700000040000000 9500000000000000",3,3),
("18000000ffffffff 0000000000000000 9500000000000000",4294967295,2),
("b7010000ff000000 bf10080000000000 9500000000000000",18446744073709551615,3),
("b700000002010000 dc00000010000000 9500000000000000",513,3),
("b700000001000000 d700000040000000 9500000000000000",72057594037927936,3),
("7a0a00fe00000000 b700000000000000 9500000000000000",0,3),
("61100000000000001600010007000000b4000000010000009500000000000000",None,None)]
for t,r,n in P:
    if r is None:
        # ldxw r0, [r1+0]; jeq32 r0, 7, +1; mov32 r0, 1; exit: the argument's first word is 0x048302f1
        t=' '.join(t[i:i+16] for i in range(0,len(t),16)); r,n=1,4
    rows.append(('ROWS',t,r,n))
# the edges of both widths, in registers
CODES=dict(Add=0,Sub=1,Mul=2,Div=3,Sdiv=3,Or=4,And=5,Lsh=6,Rsh=7,Mod=9,Smod=9,Xor=10,Mov=11,Arsh=12)
TESTS=dict(Jeq=1,Jgt=2,Jge=3,Jset=4,Jne=5,Jsgt=6,Jsge=7,Jlt=10,Jle=11,Jslt=12,Jsle=13)
for w,alu_class,test_class in ((64,7,5),(32,4,6)):
    for op in edges.OPERATIONS:
        for a,b,r in edges.operation_rows(w,op):
            row('EDGE',lddw(0,a)+lddw(3,b)+[slot(16*CODES[op]+8+alu_class,0,3,1 if op in ('Sdiv','Smod') else 0),EXIT],r,4)
    for a,b,held in edges.condition_rows(w):
        for condition,t in zip(edges.CONDITIONS,held):
            row('EDGE',lddw(3,a)+lddw(4,b)+mov(0,1)+[slot(16*TESTS[condition]+8+test_class,3,4,1)]+mov(0,0)+[EXIT],1 if t else 0,5 if t else 6)
for n in edges.WORDS:
    for w,bits in ((64,8),(64,16),(64,32),(32,8),(32,16)):
        row('EDGE',lddw(3,n)+[slot(0xbf if w==64 else 0xbc,0,3,bits),EXIT],edges.extended(w,bits,n),3)
    for op,order in ((0xd4,'le'),(0xdc,'be'),(0xd7,'be')):
        for bits in (16,32,64):
            row('EDGE',lddw(0,n)+[slot(op,0,0,0,bits),EXIT],edges.swap(order,bits,n),3)
    for op,w in ((0x87,64),(0x84,32)):
        row('EDGE',lddw(0,n)+[slot(op),EXIT],edges.negated(w,n),3)
assert len(seen) == 117
for _, text, reply, steps in rows:
    print(f'{text} = {reply} {steps}')
