import subprocess,os,time
os.chdir('/tmp/x')
subprocess.run("find crates -name must-fail -type d | xargs rm -rf",shell=True)
H={
'page_cursor':[('cursor.rt','if self.marks.has(place, t) {','if self.marks.has(place, { t }) {'),('marks.rt','for i in 0..count {','for i in 0..(count) {'),('marks.rt','self.pages[self.count] = page;','self.pages[self.count] = { page };'),('cursor.rt','for i in 0..entries(flash, page) {','for i in 0..(entries(flash, page)) {'),('cursor.rt','Some(listed) => Some(listed.place),','Some(listed) => Some({ listed.place }),')],
'branch_bridge':[('unresolving.rt','let mut from = layout.pool_first;','let mut from = { layout.pool_first };'),('arrival.rt','unmark_offsets(flash, victim, t / PAGE_WORDS, known);','unmark_offsets(flash, victim, { t / PAGE_WORDS }, known);'),('through.rt','if page == stub / PAGE_WORDS {','if page == { stub / PAGE_WORDS } {'),('arrival.rt','    forget_page(sram, victim);','    forget_page(sram, { victim });'),('arrival.rt','    let prepared = prepare_with(flash, layout, known, page, t);','    let _ = flash.ops(); let prepared = prepare_with(flash, layout, known, page, t);')],
'nat_page':[('drafting.rt','if known[(next % PAGE_WORDS) as usize] {','if known[((pc + 1) % PAGE_WORDS) as usize] {'),('drafting.rt','if words + 2 + usize::from(stub_size(next, next + 1)) > 128 {','if 2 + words + usize::from(stub_size(next, next + 1)) > 128 {'),('image.rt','if first == 0 {','if first < 1 {'),('image.rt','if a + 1 >= self.layout.image_words {','if self.layout.image_words <= a + 1 {')],
'tk_tasks':[('run.rt','send_in_turn(done, gathered, out)?;','send_in_turn({ done }, gathered, out)?;'),('run.rt','done = (done + shown.count) % TURN;','done = { done + shown.count } % TURN;'),('trying.rt','behind(k, p, before, left - count, count)','behind(k, p, before, left - count, { count })')],
'tk_run':[('run.rt','send_in_turn(done, gathered, out)?;','send_in_turn({ done }, gathered, out)?;'),('run.rt','up_to_turn(done).min(n - done)','up_to_turn({ done }).min({ n - done })')],
'page_index':[('page.rt','known[map_entry(flash, page, i).offset as usize] = false;','known[{ map_entry(flash, page, { i }).offset as usize }] = false;')],
'page_draft':[('draft.rt','self.entries.push(256 * (pc % PAGE_WORDS) + self.size);','self.entries.push({ 256 * (pc % PAGE_WORDS) + self.size });')],
'byte_streams':[('standard.rt','self.given.and(&&buf[..count])','self.given.and(&{ &buf[..count] })'),('standard.rt','match self.writer.write_once(piece) {','match self.writer.write_once({ piece }) {'),('standard.rt','let answer = self.reader.read_once(buf);','let answer = { self.reader.read_once(buf) };')],
}
import sys
for c in sys.argv[1:] or H:
    for f,a,b in H[c]:
        p=f'crates/{c}/src/{f}'; s=open(p).read(); assert s.count(a)==1,(c,f,a,s.count(a)); open(p,'w').write(s.replace(a,b))
    subprocess.run(['rt','fmt'],cwd=f'crates/{c}',capture_output=True); t=time.time()
    r=subprocess.run(['rt','ci',c],capture_output=True,text=True)
    open(f'/tmp/m/harm2-{c}.log','w').write(r.stdout+r.stderr)
    bad=[l for l in (r.stdout+r.stderr).split('\n') if 'error' in l or 'not proved' in l or ': note:' in l][:6]
    open('/tmp/m/harm.txt','a').write(f"{c} rc={r.returncode} {time.time()-t:.0f}s\n"+''.join('   '+l[:250]+'\n' for l in bad))
    subprocess.run(['git','checkout','-q','--',f'crates/{c}/src'])
