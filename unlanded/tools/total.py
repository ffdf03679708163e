import json,glob,os
f=json.load(open('/tmp/w/first.json')); g1=json.load(open('/tmp/w/gate1.json')); g2=json.load(open('/tmp/w/gate2.json'))
changed={'tkernel_cli','cli_jobs','cli_words','cli_requests','tk_watch','tkwatch','theorem_reader','tkernel_cases','tkernel','words_tests'}
tests={'pool_tests','kernel_tests','mote_tests','tkernel_tests'}
kept={(p.split('/')[-3],os.path.basename(p)[:-5]) for p in glob.glob('/tmp/w/f/crates/*/must-fail/*.edit')}
tot={'proofs of the program':0,'proofs of the rest':0,'tests':0,'seeds':0,'edits':0}
prog=set(k.split('|')[0] for k in f)|{'base_laws'}
def add(d,rule):
    for k,v in d.items():
        c,w=k.split('|',1)
        if c in('rattle','clang'): continue
        if not rule(c,w): continue
        if w.startswith('edit '):
            if (c,w[5:]) in kept: tot['edits']+=v[0]
        elif 'seed' in w: tot['seeds']+=v[0]
        elif w=='tests': tot['tests']+=v[0]
        elif c in prog or c=='tkernel': tot['proofs of the program']+=v[0]
        else: tot['proofs of the rest']+=v[0]
# the first output's crates that did not change
add(f,lambda c,w: c not in changed)
# the second run: what did not change; not what was run by hand beside it
def r1(c,w):
    if c in changed: return False
    if c in tests: return w=='build' and False
    if w=='check': return False
    return True
add(g1,r1)
add(g2,lambda c,w: True)
# first.json lacks what ended before the sampler began: by `time` 3351.6 for 3201
tot['proofs of the program']+=3351.6-sum(v[0] for v in f.values())
# own run of pool_tests counted in gate2
tot['tests']-=48.6 if g2.get('pool_tests|tests',[0,0])[1]>1 else 0
for k,v in tot.items(): print(k, round(v), 's', round(v/60,1),'pm')
s=sum(tot.values()); print('sum',round(s),'s',round(s/60,1),'pm; of the fast machine by 2.38:',round(s/60/2.378,1))
