// Friends of jane may look at her albums.
@id("friends-view")
permit(
  principal in UserGroup::"janeFriends",
  action in [Action::"view", Action::"listPhotos"],
  resource in Account::"jane"
);

// The owner of a photo may do everything with it.
@id("owner")
permit(principal, action, resource)
when { resource has owner && resource.owner == principal };

// Nobody but its owner sees what is private.
@id("private")
forbid(principal, action, resource)
when { resource has private && resource.private }
unless { resource has owner && resource.owner == principal };

// From home alone, and with two factors.
@id("delete-from-home")
forbid(principal, action == Action::"delete", resource)
unless { context.mfa && context.source.isInRange(ip("192.168.0.0/16")) };
