//! Long runs of calls on one image: the library and the second program format, put, delete, make and remove directories, check, list and read alike,
//! after each other's edits; careful puts and deletes are made too, some of them stopped and mended, and gathered copies, some of which the run goes on
//! with.
//! Every answer and every lent byte is compared, and each is known by construction: the image has a plan, which the edits change.

use crate::gathered::gathered_plan;
use crate::generators::{files, random_directory_path, subdirectories};
use crate::plans::{
    directories, formatted_plan, geometry, is_hidden, may_be_local, overlaid, page_with_space,
    plan_with, plan_with_directory, plan_without, plan_without_directory, Room,
};
use crate::puts::{
    careful_bytes, count_room, done_features, labelled_path, make_features, path_in, random_bytes,
    tight_bytes,
};
use crate::stops::{careful_edit, Careful, Edit};
use crate::trials::random_allowed;
use crate::{answer, both, mended, no_writes, table_bytes, writes, Button, Tally};
use referee::builder::plan::{Built, BuiltEntry, ImagePlan};
use referee::rng::Rng;

/// A button, the plan of what it holds, and the plan's image with the answers it must give.
pub struct Run<'a> {
    button: Button,
    plan: ImagePlan,
    built: Built,
    rng: &'a mut Rng,
    tally: &'a mut Tally,
}

impl<'a> Run<'a> {
    /// An image of any bytes, formatted by both.
    pub fn formatted(
        page_length: u32,
        page_count: u32,
        local: u32,
        rng: &'a mut Rng,
        tally: &'a mut Tally,
    ) -> Run<'a> {
        let plan = formatted_plan(page_length, page_count, local != 0);
        let mut run = Run::generated(plan, rng, tally);
        run.button.image = run.rng.bytes(run.button.image.len());
        run.format(local);
        run
    }

    /// An image of a plan.
    pub fn generated(plan: ImagePlan, rng: &'a mut Rng, tally: &'a mut Tally) -> Run<'a> {
        let built = plan.build();
        Run {
            button: Button::from(&built),
            plan,
            built,
            rng,
            tally,
        }
    }

    /// Bytes of an owner table that is long enough.
    fn table(&mut self) -> usize {
        table_bytes(self.button.page_count) + self.rng.below(6)
    }

    /// The file of a path.
    fn file(&self, path: &[u8]) -> Option<&BuiltEntry> {
        files(&self.built)
            .into_iter()
            .find(|file| file.path == path)
    }

    /// A path of one of a few names in a directory that is there, or in none.
    fn few_names(&mut self) -> Vec<u8> {
        let directories = directories(&self.plan);
        let mut path = directories[self.rng.below(directories.len())].0.clone();
        if self.rng.chance(5) && path.len() < 32 {
            path.extend(*b"NONE");
        }
        let digit = b'0' + self.rng.below(8) as u8;
        path.extend([b'A' + self.rng.below(6) as u8, digit, b' ', b' ']);
        path.push([0, 1, 99][self.rng.below(3)]);
        path
    }

    /// A path, most often of a file that is there or could be.
    fn path(&mut self) -> Vec<u8> {
        if self.rng.chance(30) {
            return self.few_names();
        }
        labelled_path(&self.plan, &self.built, self.rng).1
    }

    /// The path of a file that is there, if there is one; else any.
    fn file_path(&mut self) -> Vec<u8> {
        let path = self
            .rng
            .pick(&files(&self.built))
            .map(|file| file.path.clone());
        path.unwrap_or_else(|| self.path())
    }

    /// Demands the image of another plan, laid over the image as it was, after an edit that was done.
    fn edited(&mut self, before: &Button, plan: ImagePlan) {
        self.built = plan.build();
        self.plan = plan;
        let expected = overlaid(before, &self.built);
        assert!(self.button.image == expected, "known by construction");
    }

    /// Format with both: an empty root, or 4 and all as before.
    fn format(&mut self, local: u32) {
        let before = self.button.clone();
        let table = self.table();
        let told = both::format(&mut self.button, table, local, self.rng);
        self.tally.add(format!("format {}", told.number));
        let (page_length, page_count) = (before.page_length, before.page_count);
        if local != 0 && !may_be_local(page_count) {
            assert_eq!(told, answer(4, 0));
            return;
        }
        assert_eq!(told, answer(0, 0));
        let plan = formatted_plan(page_length, page_count, local != 0);
        self.edited(&before, plan);
    }

    /// A put with both of random bytes.
    fn put(&mut self, path: &[u8]) {
        let bytes = random_bytes(&self.plan, path, self.rng);
        self.put_bytes(path, &bytes);
    }

    /// Puts of small files with both until a directory must grow, then perhaps a directory made there, then two puts that have just enough pages, or one
    /// too few.
    fn crowd(&mut self) {
        let directories = directories(&self.plan);
        let names = directories[self.rng.below(directories.len())].0.clone();
        for _ in 0..40 {
            let path = path_in(&names, self.rng);
            match Room::of(&self.plan, &path) {
                Ok(room) if room.space.is_some() && !room.free.is_empty() => {
                    self.put_bytes(&path, b"");
                }
                _ => break,
            }
        }
        if self.rng.chance(50) {
            self.make_directory(&[names.as_slice(), b"CROW"].concat());
        }
        for _ in 0..2 {
            let path = path_in(&names, self.rng);
            if let Ok(room) = Room::of(&self.plan, &path) {
                let bytes = tight_bytes(&room, self.rng);
                self.put_bytes(&path, &bytes);
            }
        }
    }

    /// A put with both.
    fn put_bytes(&mut self, path: &[u8], bytes: &[u8]) {
        let before = self.button.clone();
        let table = self.table();
        let told = both::put(&mut self.button, table, path, bytes, self.rng);
        self.tally.add("puts");
        self.tally.add(format!("put {}", told.number));
        if let Ok(room) = Room::of(&self.plan, path) {
            count_room(&room, bytes, told.number, self.tally);
        }
        let plan = match plan_with(&self.plan, path, bytes) {
            Ok(plan) => plan,
            Err(number) => return assert_eq!(told, answer(number, 0), "known by construction"),
        };
        assert_eq!(told, answer(0, 0), "known by construction");
        let built = self.built.clone();
        self.edited(&before, plan);
        for label in done_features(&built, &self.built, path) {
            self.tally.add(label);
        }
    }

    /// A delete with both.
    fn delete(&mut self, path: &[u8]) {
        let before = self.button.clone();
        let table = self.table();
        let told = both::delete(&mut self.button, table, path, self.rng);
        self.tally.add(format!("delete {}", told.number));
        let Some(file) = self.file(path) else {
            assert!(told == answer(14, 0) || told == answer(15, 0));
            return;
        };
        if is_hidden(&self.plan, path) {
            return assert_eq!(told, answer(22, 0));
        }
        if file.listing.attribute == 1 {
            return assert_eq!(told, answer(16, 0));
        }
        assert_eq!(told, answer(0, 0));
        if file.stamps > 0 {
            self.tally.add("file with stamps deleted");
        }
        let plan = plan_without(&self.plan, path).expect("the plan has the file");
        self.edited(&before, plan);
    }

    /// A careful put or delete with both, of some writes or all, and a mend if any are left.
    fn careful(&mut self, path: &[u8]) {
        let edit = match self.rng.chance(70) {
            true => Edit::Put(careful_bytes(&self.plan, path, self.rng)),
            false => Edit::Delete,
        };
        let call = match edit {
            Edit::Put(_) => "careful put",
            Edit::Delete => "careful delete",
        };
        let expected = Careful::new(self.button.clone(), &self.plan, path, edit.clone());
        let allowed = random_allowed(self.rng);
        let told = careful_edit(&mut self.button, path, &edit, allowed, self.rng);
        self.tally.add(format!("{call} {}", told.number));
        let careful = match expected {
            Ok(careful) => careful,
            Err(number) => return assert_eq!(told, no_writes(number, 0), "known by construction"),
        };
        let total = careful.total() as u32;
        let known = writes(allowed.min(total), allowed < total);
        assert_eq!(told, known, "known by construction");
        if told.left == 1 {
            self.tally.add("careful edits stopped");
            self.mend();
        }
        if careful.order.is_visible_after(told.made as usize) {
            self.plan = careful.after.plan;
            self.built = careful.after.built;
        }
        self.check();
    }

    /// A path to make a directory at: most often of one of a few names in a directory that is there, which often has no space for an entry.
    fn new_directory(&mut self) -> Vec<u8> {
        if self.rng.chance(25) {
            return random_directory_path(&self.built, self.rng);
        }
        let mut parents = directories(&self.plan);
        if self.rng.chance(40) {
            let sizes = geometry(self.plan.page_length, self.plan.page_count);
            let all = parents.clone().into_iter();
            let full: Vec<_> = all
                .filter(|(_, directory)| page_with_space(&sizes, directory).is_none())
                .collect();
            if !full.is_empty() {
                parents = full;
            }
        }
        let mut path = parents[self.rng.below(parents.len())].0.clone();
        if self.rng.chance(5) {
            path.extend(*b"NONE");
        }
        path.extend([b'A' + self.rng.below(6) as u8, b'D', b' ', b' ']);
        path
    }

    /// The path of a directory that is there, often of one without entries; else any.
    fn old_directory(&mut self) -> Vec<u8> {
        let all = subdirectories(&self.built).into_iter();
        let mut paths: Vec<Vec<u8>> = all.map(|entry| entry.path.clone()).collect();
        if self.rng.chance(60) {
            let is_removed = |path: &Vec<u8>| plan_without_directory(&self.plan, path).is_ok();
            let removed: Vec<Vec<u8>> = paths
                .iter()
                .filter(|path| is_removed(path))
                .cloned()
                .collect();
            if !removed.is_empty() {
                paths = removed;
            }
        }
        match self.rng.pick(&paths) {
            Some(path) if self.rng.chance(85) => path.clone(),
            _ => self.new_directory(),
        }
    }

    /// A directory made with both.
    fn make_directory(&mut self, path: &[u8]) {
        let before = self.button.clone();
        let table = self.table();
        let told = both::make_directory(&mut self.button, table, path, self.rng);
        self.tally.add(format!("make directory {}", told.number));
        if let Ok(room) = Room::of_directory(&self.plan, path) {
            for label in make_features(&room) {
                self.tally.add(format!("{label}: {}", told.number));
            }
        }
        let plan = match plan_with_directory(&self.plan, path) {
            Ok(plan) => plan,
            Err(number) => return assert_eq!(told, answer(number, 0), "known by construction"),
        };
        assert_eq!(told, answer(0, 0), "known by construction");
        if path.len() == 32 {
            self.tally.add("directory made at level eight");
        }
        self.edited(&before, plan);
    }

    /// A directory removed with both.
    fn remove_directory(&mut self, path: &[u8]) {
        let before = self.button.clone();
        let table = self.table();
        let told = both::remove_directory(&mut self.button, table, path, self.rng);
        self.tally.add(format!("remove directory {}", told.number));
        let plan = match plan_without_directory(&self.plan, path) {
            Ok(plan) => plan,
            Err(number) => return assert_eq!(told, answer(number, 0), "known by construction"),
        };
        assert_eq!(told, answer(0, 0), "known by construction");
        let directories = subdirectories(&self.built);
        let removed = directories.iter().find(|entry| entry.path == path);
        let removed = removed.expect("the plan has the directory");
        if removed.stamps > 0 {
            self.tally.add("directory with stamps removed");
        }
        if self.built.chains[removed.chain].pages.len() > 1 {
            self.tally.add("directory of several pages removed");
        }
        self.edited(&before, plan);
    }

    /// A directory with both that has files put into it until it has several pages, or there is no room, and loses them again; then it is removed.
    fn grown_directory(&mut self) {
        let path = self.new_directory();
        self.make_directory(&path);
        let mut files = Vec::new();
        for _ in 0..self.rng.between(4, 40) {
            let file = path_in(&path, self.rng);
            self.put_bytes(&file, b"");
            files.push(file);
        }
        self.remove_directory(&path);
        self.rng.shuffle(&mut files);
        for file in files {
            self.delete(&file);
        }
        self.remove_directory(&path);
    }

    /// A mend with both, after a careful edit that was stopped.
    fn mend(&mut self) {
        let table = self.table();
        let verdict = both::check(&self.button, table, self.rng);
        let told = both::mend(&mut self.button, table, self.rng);
        self.tally.add(format!("mend {}", told.number));
        match verdict.number {
            0 => assert_eq!(told, mended(0)),
            number => assert!(number == 13 && told.number == 0 && told.cleared > 0),
        }
    }

    /// A gather with both; the calls after it may go on with the copy.
    fn gather(&mut self) {
        let table = self.table();
        let length = self.button.image.len();
        let (told, copy) = both::gather(&self.button, length, table, self.rng);
        self.tally.add(format!("gather {}", told.number));
        assert_eq!(told, answer(0, 0));
        let plan = gathered_plan(&self.plan);
        let built = plan.build();
        assert!(copy == built.image, "known by construction");
        if self.rng.chance(50) {
            self.button.image = copy;
            self.plan = plan;
            self.built = built;
        }
    }

    /// A put or a delete with both of a path that is malformed.
    fn malformed(&mut self, mut path: Vec<u8>) {
        match (path.len(), self.rng.below(3)) {
            (0, _) => path = b"A".to_vec(),
            (length, 0) => path.truncate(length / 4 * 4),
            (length, 1) => path[length - 1] |= 0x80,
            _ => path[0] = b'a',
        }
        if self.rng.chance(50) {
            return self.put(&path);
        }
        let table = self.table();
        let told = both::delete(&mut self.button, table, &path, self.rng);
        self.tally.add(format!("delete {}", told.number));
        assert_eq!(told, answer(14, 0));
    }

    /// A read with both, into an output that may be too short.
    fn read(&mut self, path: &[u8]) {
        let known = self.file(path).map(|file| file.bytes.clone());
        let length = known.as_ref().map_or(0, Vec::len);
        let out_bytes = (length + self.rng.below(4)).saturating_sub(self.rng.below(3));
        let table = self.table();
        let (told, bytes) = both::read_bytes(&self.button, table, path, out_bytes, self.rng);
        self.tally.add(format!("read {}", told.number));
        let told = answer(told.number, told.page);
        match known {
            None => assert!(told == answer(14, 0) || told == answer(15, 0)),
            Some(known) if known.len() <= out_bytes => {
                assert_eq!((told, bytes), (answer(0, 0), known));
            }
            Some(_) => assert_eq!(told, answer(18, 0)),
        }
    }

    /// A check with both.
    fn check(&mut self) {
        let table = self.table();
        let totals = both::check(&self.button, table, self.rng);
        self.tally.add(format!("check {}", totals.number));
        assert_eq!(totals, self.built.totals);
    }

    /// A listing with both.
    fn list(&mut self) {
        let position = self.rng.below(self.built.entries.len() + 1);
        let table = self.table();
        let told = both::list(&self.button, table, position as u32, self.rng);
        self.tally.add(format!("list {}", told.number));
        match self.built.entries.get(position) {
            Some(entry) => assert_eq!(told, entry.listing),
            None => assert_eq!(answer(told.number, told.page), answer(15, 0)),
        }
    }

    /// One random call.
    fn step(&mut self) {
        let path = match self.rng.below(3) {
            0 => self.file_path(),
            _ => self.path(),
        };
        match self.rng.below(240) {
            0..=74 => self.put(&path),
            75..=119 => self.delete(&path),
            120..=143 => self.careful(&path),
            144..=149 => self.malformed(path),
            150..=173 => self.read(&path),
            174..=183 => self.check(),
            184 | 185 => self.crowd(),
            186..=196 => self.list(),
            197 => {
                let local = [1, 7, u32::MAX][self.rng.below(3)];
                self.format(local);
            }
            198 if self.rng.chance(30) => self.format(0),
            200..=219 => {
                let path = self.new_directory();
                self.make_directory(&path);
            }
            220..=237 => {
                let path = self.old_directory();
                self.remove_directory(&path);
            }
            238 => self.grown_directory(),
            199 | 239 => self.gather(),
            _ => self.check(),
        }
    }

    /// So many random calls, then a read and a delete of every file that is left, and a removal of every directory, the deepest first.
    pub fn run(&mut self, steps: usize) {
        self.check();
        for _ in 0..steps {
            self.step();
        }
        let left = files(&self.built).into_iter();
        let mut paths: Vec<Vec<u8>> = left.map(|file| file.path.clone()).collect();
        self.rng.shuffle(&mut paths);
        for path in paths {
            self.read(&path);
            self.delete(&path);
        }
        self.check();
        let mut left = files(&self.built).into_iter();
        let is_kept = |path: &[u8]| is_hidden(&self.plan, path);
        assert!(left.all(|file| file.listing.attribute == 1 || is_kept(&file.path)));
        let left = subdirectories(&self.built).into_iter();
        let mut paths: Vec<Vec<u8>> = left.map(|entry| entry.path.clone()).collect();
        paths.sort_by_key(|path| usize::MAX - path.len());
        for path in paths {
            self.remove_directory(&path);
        }
        self.check();
    }
}
