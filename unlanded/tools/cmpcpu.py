import json,sys
a=json.load(open(sys.argv[1]));b=json.load(open(sys.argv[2]))
groups=[(['base_laws','no_memory'],['base']),(['line_reader','line_writer'],['byte_streams']),(['avr_ops','flash_model'],['flash_model']),(['line_gathering','printed_text'],['printed_text']),(['nat_page'],['nat_page','kept_drafts'])]
used=set()
rows=[]
for x,y in groups:
    rows.append(('+'.join(y),sum(a.get(c,0) for c in x),sum(b.get(c,0) for c in y))); used|=set(x)|set(y)
for c in sorted(set(a)|set(b)):
    if c not in used: rows.append((c,a.get(c,0),b.get(c,0)))
rows.sort(key=lambda r:r[1]-r[2])
for r in rows: print('%-24s %6.1f %6.1f %+6.1f'%(*r,r[2]-r[1]))
print(sum(a.values()),sum(b.values()),sum(b.values())/sum(a.values()))
