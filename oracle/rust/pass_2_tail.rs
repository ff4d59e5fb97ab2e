
// The collected effects as list 1 has them.
fn report(effects: &[Pass2Effect]) {
    for effect in effects {
        let (func, key) = match effect.modifier {
            Modifier::LocationRequiredSkillModifier(skill) => (0, skill),
            Modifier::LocationGroupModifier(group) => (1, group),
            Modifier::LocationModifier() => (2, 0),
            Modifier::OwnerRequiredSkillModifier(skill) => (3, skill),
            Modifier::ItemModifier() => (4, 0),
        };
        let (origin, value) = super::report::origin(effect.origin);
        let (given, resistance) = super::report::optional(effect.resistance);
        super::report::collected(format!(
            "C {origin} {func} {key} {} {} {} {} {given} {resistance} {value}",
            effect.operator as u32,
            effect.source_quantity,
            super::report::number(effect.target),
            effect.target_attribute_id,
        ));
    }
}
