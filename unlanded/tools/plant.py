import subprocess,sys,os,re
C='/tmp/w/pl'
P=[('text_lines','src/coded.rt',"    text.extend_from_slice(front)?;\n    text.extend_from_slice(digits.as_bytes())?;\n","    text.extend_from_slice(digits.as_bytes())?;\n    text.extend_from_slice(front)?;\n",'digits before the front'),
('text_lines','src/coded.rt',"hex::encode_upper(alloc, bytes)","hex::encode(alloc, bytes)",'lower case'),
('text_lines','src/coded.rt',"    text.push(b'\\n')?;\n    Ok(())","    text.extend_from_slice(b\"\\n\")?;\n    Ok(())",'HARMLESS'),
('input_script','specs/GrammarLaw.antt',"(length text ≤ 10) × IsWritten","(length text ≤ 11) × IsWritten",'11 digits'),
('input_script','specs/GrammarLaw.antt','IsWritten (codes "int ") 8 1','IsWritten (codes "int ") 10 1','int of base 10'),
('input_script','specs/GrammarLaw.antt','IsWrong Range before line = (statement : Statement) × IsStatement line statement × (is_late before statement ≡ false) ×','IsWrong Range before line = (statement : Statement) × IsStatement line statement ×','range without order'),
('hex_image','specs/GrammarLaw.antt','then 16 * word_in','then 65536 * word_in','segment as linear base'),
('hex_image','specs/GrammarLaw.antt','× (kind_in (bytes_of line) ≢ 1) ×','×','end record before the end'),
('hex_image','specs/GrammarLaw.antt','cells_behind (before ++ line ∷ []) lines','cells_behind before lines','bases forgotten'),
('flash_dump','specs/GrammarLaw.antt','AllPairs (λ page later. page < later)','AllPairs (λ page later. page ≤ later)','a page twice'),
('flash_dump','specs/GrammarLaw.antt','pub size : length words ≡ 512','pub size : length words ≡ 511','a digit less'),
]
for c,f,a,b,n in P:
    p='%s/crates/%s/%s'%(C,c,f); s=open(p).read(); assert s.count(a)==1,(n,s.count(a)); open(p,'w').write(s.replace(a,b))
    out=subprocess.run(['/tmp/w/rd.sh',C,c],env=dict(os.environ,RL='/tmp/w/rlf'),stdout=subprocess.PIPE,stderr=subprocess.STDOUT,text=True).stdout
    open(p,'w').write(s)
    last=out.strip().split('\n')[-1][:30]; er=[l for l in out.split('\n') if 'error' in l or 'it is not proved' in l][:1]
    print(c,n,'->',last,(er[0][:150] if er else ''),flush=True)
