
// For timing: the objects built apart from the run over them.
pub struct Built(Objects);

pub fn built(sheet: &Sheet) -> Built {
    Built(objects_of(sheet))
}

pub fn calculated(sheet: &Sheet, built: &mut Built) {
    pass_2::PassTwo::pass(sheet, &mut built.0);
    pass_3::PassThree::pass(sheet, &mut built.0);
}

// The bits of every value, in the order of the rows.
pub fn value_bits(built: &Built) -> Vec<u64> {
    let all = in_order(&built.0);
    let rows = all.iter().flat_map(|item| item.attributes.values());
    rows.map(|attribute| attribute.value.get().unwrap().to_bits()).collect()
}
