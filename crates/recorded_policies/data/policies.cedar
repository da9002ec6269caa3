permit(principal, action, resource);
---
// Alice may view one photo.
permit(
  principal == User::"alice",
  action == Action::"view",
  resource == Photo::"VacationPhoto94.jpg"
);
---
permit(principal in UserGroup::"AVTeam", action in [Action::"view", Action::"edit"], resource is Photo)
when { resource.owner == principal && context.mfa }
unless { resource.private };
---
@id("no-tor")
@advice("block exit nodes")
@audited
forbid(principal is Org::User in Org::Group::"staff", action in Action::"write", resource is Photo in Album::"a")
when { context has ip }
when { ip("10.0.0.1").isLoopback() };
permit(principal, action in [], resource);
---
permit(principal == ?principal, action, resource in ?resource) unless { resource has hidden };
---
permit(principal is User in ?principal, action in [Action::"read",], resource == ?resource,);
---
permit(principal, action, resource)
---
allow(principal, action, resource);
---
permit(principal, action);
---
permit(action, principal, resource);
---
permit(principal == ?resource, action, resource);
---
permit(principal, action == ?principal, resource);
---
permit(principal, action, resource) when { principal == ?principal };
---
permit(principal, action, resource) when { };
---
permit(principal, action, resource) when { 1 + };
---
permit(principal, action, resource) where { true };
---
permit(principal == "alice", action, resource);
---
permit(principal, action in [Action::"a", 3], resource);
---
permit(principal, action == User::"alice", resource);
---
permit(principal, action in Shop::User::"alice", resource);
---
permit(principal, action in [Action::"a", User::"b"], resource);
---
permit(principal, action == Shop::Action::"buy", resource == Action::"buy");
---
permit(principal, action is Action, resource);
---
@id("a") @id("b") permit(principal, action, resource);
---
@id("a") permit(principal, action, resource); @id("a") forbid(principal, action, resource);
---
permit(principal, action, resource) when { true } ; @
---
permit(principal, action, resource) when { principal.name == "x };
---
permit(principal, action, resource) when { true;
---
@("a") permit(principal, action, resource);
---
permit(principal, action, resource) when true;
---
permit(principal in [User::"a"], action, resource);
---
permit(principal is , action, resource);
---

---
  // nothing
