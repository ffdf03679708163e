P=[
('links','specs/Acts.antt','StandAt after.flash.words (call_address called) 0x940C after.cpu.pc','StandAt after.flash.words (call_address called) 0x940C before.cpu.pc'),
('linktarget','specs/Acts.antt','(target ≡ program_address called) ×','(target ≡ call_address called) ×'),
('linkmade','specs/Acts.antt','((made ≡ 1) × (call_address called / 128 ≡ after.cpu.pc / 128))','((made ≡ 0) × (call_address called / 128 ≡ after.cpu.pc / 128))'),
('unmade','specs/Acts.antt','(KeepsCode before after page × (IsErased before page → IsErased after page)) ⊎ ((page ≡ lost) × IsErased after page)','(KeepsCode before after page × (IsErased before page → IsErased after page)) ⊎ ((page ≡ lost) × IsErased before page)'),
('anew','specs/Acts.antt','pub anew : (place : ℕ) → ¬ IsPlaceOf image before.flash.words target place','pub anew : (place : ℕ) → ¬ IsPlaceOf image after.flash.words target place'),
('once','specs/Restarts.antt','slice_index m.flash.erases page ≡ raised (slice_index flash.erases page)','slice_index m.flash.erases page ≡ slice_index flash.erases page + 1'),
('torn','specs/Restarts.antt','erases ≡ slice_set m.kernel.mote.flash.erases page (raised (slice_index m.kernel.mote.flash.erases page))','erases ≡ m.kernel.mote.flash.erases'),
('spared','specs/Wear.antt','slice_index after.erases page + jumps_in before.words page ≤ slice_index before.erases page + jumps_in after.words page','slice_index after.erases page ≤ slice_index before.erases page'),
('ops_tasks','specs/Stints.antt','t.kernel.mote.flash.ops ≤ 1000 * (sum_by (λ (task : Task). task.steps) t.tasks + length t.tasks)','t.kernel.mote.flash.ops ≤ 999 * (sum_by (λ (task : Task). task.steps) t.tasks + length t.tasks)'),
('pages_tasks','specs/Stints.antt','pub most_pages : t.pages ≤ sum_by (λ (task : Task). task.steps) t.tasks + length t.tasks','pub most_pages : t.pages ≤ sum_by (λ (task : Task). task.steps) t.tasks'),
('wear_tasks','specs/Stints.antt','pub wear : t.pages ≤ pool_size image → IsSpared','pub wear : pool_size image ≤ t.pages → IsSpared'),
('wear_second','specs/Restarts.antt','pub wear : m.pages ≤ pool_size asked.image → IsSpared','pub wear : pool_size asked.image ≤ m.pages → IsSpared'),
]
