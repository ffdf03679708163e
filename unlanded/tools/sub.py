import sys,re,textwrap
def sub(path, pairs, width=140):
    lines=open(path).read().split('\n')
    # split into blocks: contiguous nonblank lines; break at bullets/headings/tables/fences
    blocks=[];cur=[];fence=False
    for l in lines:
        if l.startswith('```'):
            if cur: blocks.append(('p',cur)); cur=[]
            fence=not fence; blocks.append(('r',[l])); continue
        if fence or not l.strip() or l.startswith('#') or l.startswith('|'):
            if cur: blocks.append(('p',cur)); cur=[]
            blocks.append(('r',[l])); continue
        if re.match(r'\s*(-|\*|\d+\.)\s',l):
            if cur: blocks.append(('p',cur)); cur=[]
        cur.append(l)
    if cur: blocks.append(('p',cur))
    for old,new in pairs:
        n=0
        for i,(k,b) in enumerate(blocks):
            if k!='p': continue
            first=b[0]; m=re.match(r'(\s*(?:(?:-|\*|\d+\.)\s+)?)',first); lead=m[1]
            body=' '.join([first[len(lead):].strip()]+[x.strip() for x in b[1:]])
            c=body.count(old)
            if c:
                n+=c
                body=body.replace(old,new)
                ind=' '*len(lead)
                w=textwrap.wrap(body,width,initial_indent=lead,subsequent_indent=ind,break_long_words=False,break_on_hyphens=False)
                # keep code spans unbroken is not needed
                blocks[i]=('p',w)
        if n!=1: print('NOT ONCE',n,path,old[:70])
    open(path,'w').write('\n'.join(l for _,b in blocks for l in b))
