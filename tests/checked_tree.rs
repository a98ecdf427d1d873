
/// Checks of a tree with small leaves and nodes, which tests/plain_rust appends to the modules of the proved code.
mod checked {
    use super::*;
    use crate::proved::vm_tree::cut::Cut;
    use crate::proved::vm_tree::grow::is_same;
    use crate::proved::vm_tree::search::Seek;

    /// A tree above this height is not checked, because each check goes through all nodes.
    const HIGHEST: u64 = 7;

    impl<L: Leaf> Node<L> {
        /// Checks what is stored beside each child, and that all leaves are at the same depth. Returns the height.
        fn check(&self) -> u64 {
            let mut height = 0;
            for i in 0..FANOUT {
                let (entry, below) = match &self.kids {
                    Kids::Leaves(slots) => slots[i].as_ref().map(|leaf| (leaf.entry(), 1)),
                    Kids::Nodes(slots) => slots[i].as_ref().map(|node| (node.entry(), node.check())),
                }
                .unzip();
                assert_eq!(entry.is_some(), i < self.entries.len());
                assert!(entry.is_none_or(|entry| is_same(&self.entries.entry(i), &entry)));
                assert!(i == 0 || below.is_none_or(|below| below == height));
                height = below.unwrap_or(height);
            }
            height + 1
        }
    }

    impl<L: Leaf> Tree<L> {
        fn check(&self) {
            match &self.root {
                Root::Inner(node) if self.height() <= HIGHEST => assert_eq!(node.check(), self.height()),
                _ => {}
            }
        }

        pub(in crate::proved) fn edit_with<E: Edit<L>>(
            &mut self,
            key: u64,
            edit: &mut E,
            spares: &mut Vec<Box<Node<L>>>,
            alloc: Global,
            count: &mut u64,
        ) -> Result<bool, AllocError> {
            let done = self.unchecked_edit_with(key, edit, spares, alloc, count);
            self.check();
            done
        }

        pub(in crate::proved) fn cut<E: Cut<L>>(&mut self, key: u64, edit: &mut E, count: &mut u64) -> bool {
            let done = self.unchecked_cut(key, edit, count);
            self.check();
            done
        }

        pub(in crate::proved) fn seek<S: Seek<L>>(
            &mut self,
            seek: &mut S,
            alloc: Global,
            count: &mut u64,
        ) -> Result<Option<bool>, AllocError> {
            let done = self.unchecked_seek(seek, alloc, count);
            self.check();
            done
        }
    }
}
