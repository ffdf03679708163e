import textwrap,re
def unwrap(lines):
    return ' '.join(l.strip() for l in lines)
class Doc:
    def __init__(self, path, width=140):
        self.path=path; self.width=width
        self.lines=open(path).read().split('\n')
    def paras(self):
        # list of (start,end) of paragraphs or bullets
        out=[];i=0;n=len(self.lines)
        while i<n:
            l=self.lines[i]
            if not l.strip() or l.startswith('#') or l.startswith('|'):
                i+=1;continue
            j=i+1
            while j<n and self.lines[j].strip() and not self.lines[j].startswith(('- ','#','|')) : j+=1
            out.append((i,j)); i=j
        return out
    def rep(self, old, new):
        hits=[]
        for (i,j) in self.paras():
            t=unwrap(self.lines[i:j])
            if old in t: hits.append((i,j,t))
        assert len(hits)==1,(old,len(hits))
        i,j,t=hits[0]
        assert t.count(old)==1,(old,t.count(old))
        t=t.replace(old,new)
        ind='  ' if t.startswith('- ') else ''
        self.lines[i:j]=textwrap.wrap(t,self.width,subsequent_indent=ind,break_long_words=False,break_on_hyphens=False)
    def save(self):
        open(self.path,'w').write('\n'.join(self.lines))
