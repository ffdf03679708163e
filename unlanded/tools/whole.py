# whole.py CLONE PROGRAM : prints the words of one check of the program and all its crates as sources
import sys,os,re
clone,prog=sys.argv[1:3]
deps={}
for l in open(clone+'/crates.txt'):
    l=l.split('#')[0].strip()
    if ':' in l:
        h,d=l.split(':',1); deps[h.split()[0]]=d.split()
order=[]
def add(n):
    if n not in deps or n in order: return
    for d in deps[n]: add(d)
    order.append(n)
add(prog)
kit=lambda n:[d for d in deps[n] if d not in deps]
KIT='/opt/rattle'
w=['--crate-name',prog,'src/main.rt' if os.path.isfile(f'{clone}/crates/{prog}/src/main.rt') else 'src/lib.rt','--extern',f'std={KIT}/rlibs/std.rlib']
for n in kit(prog): w+=['--extern',f'{n}={KIT}/rlibs/{n}.rlib']
w+=['-L',f'dependency={KIT}/rlibs']
more={'core'}|{d for n in order[:-1] for d in kit(n)}
for n in sorted(more-set(kit(prog))): w+=['--extern',f'{n}={KIT}/rlibs/{n}.rlib']
for n in order[:-1]:
    uses=list(dict.fromkeys(['core','std']+kit(n)+[d for d in deps[n] if d in deps]))
    w+=['--lib',f"{n}:{','.join(uses)}={clone}/crates/{n}/src/lib.rt"]
w+=['--antt-project',f'{KIT}/rattle/logic/antt-project.json','--logic-built',f'{KIT}/logic_built']
print('\n'.join(w))
