"""The picture of a trace's text, made a second time: all lanes are looked at behind every entry, and what differs is told."""
import sys
P={'processor':1,'frame':2,'page':3,'driver':4}
def page_words(a,b): return a+' '+b
def main(text):
    ls=text.split('\n')
    assert ls[0]=='trace 2' and ls[-1]=='' and ls[-2].startswith('end ')
    es=ls[1:-2]
    tenant={}; gone={}; blocked=set(); sealing=set(); seat={}; vas=0
    lanes=[]; events=[]
    def state():
        st={}
        for p,s in seat.items(): st[('processor',p)]=['in %s by tcs %s'%s]
        for f in set(tenant)|blocked|sealing:
            l=[]
            if f in tenant:
                k,g=tenant[f]; l.append(('loading ' if k else '')+g)
            if f in blocked: l.append('blocked')
            if f in sealing: l.append('sealing')
            st[('frame',f)]=l
        pages=set(gone)|{g for k,g in tenant.values()}
        for g in pages:
            has=[f for f,(k,h) in tenant.items() if h==g and k==0]
            aw=[f for f,(k,h) in tenant.items() if h==g and k==1]
            if has: st[('page',g)]=['frame %d'%min(has)]
            elif aw: st[('page',g)]=['loading %d'%min(aw)]
            elif g in gone: st[('page',g)]=['sealed %s'%gone[g]]
        return st
    before=state()
    version='0'; counts=[0,0,'0']
    for n,line in enumerate(es):
        w=line.split(' ')
        actor=w[0]
        lane={'b':('driver',1),'r':('driver',2)}.get(actor) or ('processor',int(actor[1:]))
        ops=w[1:]; refused=ops[0]=='refused'
        if refused: ops=ops[1:]
        op=ops[0]
        name=('refused ' if refused else '')+op
        if op in('age','bus'): name=op+' '+ops[1]+' '+ops[2]
        if op=='kick': name='kick '+ops[1]
        events.append((n,lane,'X',name))
        first=[]
        def put(f,t):
            if f in tenant: first.append(('page',tenant[f][1]))
            if t is None: tenant.pop(f,None)
            else: tenant[f]=t; first.append(('page',t[1]))
            blocked.discard(f)
        if refused:
            if op=='eld': put(int(ops[1]),None)
        elif op=='epa': put(int(ops[1]),(0,'va %d'%vas)); vas+=1
        elif op=='create': put(int(ops[2]),(0,ops[1]+' secs'))
        elif op=='add': put(int(ops[3]),(0,ops[1]+' '+ops[2]))
        elif op=='eldstart': put(int(ops[1]),(1,ops[2]+' '+ops[3]))
        elif op=='eld': put(int(ops[1]),(0,ops[2]+' '+ops[3]))
        elif op=='ewb':
            put(int(ops[1]),None); sealing.discard(int(ops[1])); g=ops[2]+' '+ops[3]; gone[g]=ops[4]; first.append(('page',g))
        elif op=='ewbstart': sealing.add(int(ops[1])); version=ops[-1]
        elif op=='block': blocked.add(int(ops[1]))
        elif op in('enter','resume') and lane[0]=='processor': seat[lane[1]]=(ops[1],ops[2])
        elif op in('exit','aex') and lane[0]=='processor': seat.pop(lane[1],None)
        after=state()
        changed=[k for k in set(before)|set(after) if before.get(k,[])!=after.get(k,[])]
        rank={'processor':0,'frame':1,'page':2}
        changed.sort(key=lambda k:(rank[k[0]], first.index(k) if k in first else 99))
        for k in changed:
            a,b=before.get(k,[]),after.get(k,[])
            i=0
            while i<len(a) and i<len(b) and a[i]==b[i] and (a[i] in('blocked','sealing'))==(b[i] in('blocked','sealing')): i+=1
            for _ in a[i:]: events.append((n,k,'E',''))
            for s in b[i:]: events.append((n,k,'B',s))
        before=after
        now=[len(tenant),sum(1 for k,v in after.items() if k[0]=='page' and v[0].startswith('sealed')),version]
        for name,a,b in zip(['frames in use','pages outside','version'],counts,now):
            if a!=b: events.append((n,('driver',0),'C',(name,b)))
        counts=now
    seen=[]; 
    for e in events:
        if e[1] not in seen_set:
            seen_set.add(e[1]); seen.append(e[1])
    num={k:i+1 for i,k in enumerate(seen)}
    def tid(k):
        if k[0] in('processor','frame'): return k[1]+1
        if k[0]=='page': return num[k]
        return k[1]
    def lname(k):
        if k[0]=='page': return k[1]
        if k[0]=='driver': return {0:'counters',1:'builder',2:'reclaimer'}[k[1]]
        return '%s %d'%k
    out=['{"traceEvents":[']
    for i,nm in enumerate(['processors','frames','pages','driver']): out.append('{"ph":"M","pid":%d,"tid":0,"name":"process_name","args":{"name":"%s"}},'%(i+1,nm))
    for k in seen: out.append('{"ph":"M","pid":%d,"tid":%d,"name":"thread_name","args":{"name":"%s"}},'%(P[k[0]],tid(k),lname(k)))
    for n,k,ph,nm in events:
        h='{"ph":"%s","pid":%d,"tid":%d'%(ph,P[k[0]],tid(k)); c=',"args":{"line":"%s","place":%d}},'%(es[n],n)
        if ph=='X': out.append(h+',"ts":%d,"dur":1,"name":"%s"'%(n,nm)+c)
        elif ph=='C': out.append(h+',"ts":%d,"name":"%s","args":{"n":%s}},'%((n+1,)+nm))
        elif ph=='B': out.append(h+',"ts":%d,"name":"%s"'%(n+1,nm)+c)
        else: out.append(h+',"ts":%d},'%(n+1))
    out.append('{"ph":"I","pid":4,"tid":1,"ts":%d,"s":"g","name":"end"}'%len(es)); out.append(']}')
    return '\n'.join(out)+'\n'
seen_set=set()
sys.stdout.write(main(open(sys.argv[1]).read()))
