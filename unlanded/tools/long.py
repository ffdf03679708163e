import re,sys,glob
for f in ['README.md']+sorted(glob.glob('docs/*.md'))+['examples/README.md']:
    text=open(f).read()
    text=re.sub(r'```.*?```','\n\n',text,flags=re.S)
    paras=re.split(r'\n\s*\n',text)
    line=0
    for p in paras:
        lines=[l for l in p.split('\n')]
        # drop table rows
        if any(l.lstrip().startswith('|') for l in lines): continue
        if all(l.startswith('    ') for l in lines if l.strip()): continue
        # split at list items / headings
        items=[];cur=[]
        for l in lines:
            if re.match(r'\s*([-*]|\d+\.)\s',l) or l.startswith('#'):
                if cur: items.append(' '.join(cur))
                cur=[re.sub(r'^\s*([-*]|\d+\.)\s','',l)] if not l.startswith('#') else []
            else: cur.append(l.strip())
        if cur: items.append(' '.join(cur))
        for it in items:
            it2=re.sub(r'`[^`]*`','CODE',it)
            for s in re.split(r'(?<=[.!?])[)\*]*\s+(?=[A-Z(`*\[])',it2):
                n=len(s.split())
                if n>45: print(f,n,s)
